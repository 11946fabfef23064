"""The folder that traces go to, and that it is ready before anything is made."""
import os

from shared.ends import Stop


def free_name(name):
    """A name of a folder that isn't there yet."""
    name, number = os.fsencode(name).decode('utf-8', 'replace'), 1
    while os.path.lexists(name if number == 1 else '%s.%d' % (name, number)):
        number += 1
    return name if number == 1 else '%s.%d' % (name, number)


def see_ready(folder):
    """A folder that is new or empty, and that can be written."""
    if os.path.isdir(folder):
        if os.listdir(folder):
            raise Stop('%s isn\'t empty' % folder)
        if not os.access(folder, os.W_OK):
            raise Stop('%s: nothing can be written there' % folder)
        return
    above = os.path.abspath(folder)
    while not os.path.lexists(above):
        above = os.path.dirname(above)
    if not os.path.isdir(above) or not os.access(above, os.W_OK):
        raise Stop('%s can\'t be made: nothing can be written in %s' % (folder, above))
