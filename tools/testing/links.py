"""The links of templates, as pairs of the id of a link and the id of its template."""
import json

from testing.case_files import Broken, content
from testing.printable import Stop, printable


def links_of(path):
    """The links of a file that the program has accepted, or of none."""
    if path is None:
        return []
    try:
        return [(it['link_id'], it['template_id']) for it in json.loads(content(path))]
    except (Broken, ValueError, KeyError, TypeError, RecursionError) as fault:
        raise Stop(1, '%s: the links cannot be read' % printable(path)) from fault
