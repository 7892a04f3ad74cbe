"""Makes the text of a page out of the template."""
import os

import jinja2

from report.view import view_of

PARTS = os.path.join(os.path.dirname(os.path.realpath(__file__)), 'parts')


def page_of(facts, explored):
    """The whole page as HTML. The template's values are escaped, but for the style, the script and its data."""
    loader = jinja2.FileSystemLoader(PARTS)
    environment = jinja2.Environment(loader=loader, autoescape=True, undefined=jinja2.StrictUndefined)
    view = view_of(facts, explored)
    for key in ('style', 'script', 'data'):
        view[key] = jinja2.utils.markupsafe.Markup(view[key])
    return environment.get_template('page.html.j2').render(view) + '\n'
