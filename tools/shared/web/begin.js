// Unpacks the page's data, and plotly if it has plots, and then runs the page's own scripts.
(async () => {
    if (typeof DecompressionStream === 'undefined') {
        const line = document.getElementById('unpacking');
        line.textContent = 'This browser can\u2019t unpack the page: it has no DecompressionStream. Chrome and Edge have it from 80 on, '
            + 'Safari from 16.4 on, and Firefox from 113 on.';
        line.hidden = false;
        return;
    }
    const unpacked = name => {
        const bytes = Uint8Array.from(atob(document.getElementById(name).textContent), letter => letter.charCodeAt(0));
        return new Response(new Blob([bytes]).stream().pipeThrough(new DecompressionStream('gzip'))).text();
    };
    const run = text => document.body.append(Object.assign(document.createElement('script'), {textContent: text}));
    globalThis.DATA = JSON.parse(await unpacked('packed-data'));
    if (document.getElementById('packed-plotly')) run(await unpacked('packed-plotly'));
    for (const script of document.querySelectorAll('.own-script')) run(script.textContent);
})();
