"""The page of a report: its parts, one below the other, each a module of this folder."""
import pathlib

from markup import page

from page import cut_list, fork_list, function_table, leaf_list, listing, source_text, summary, trap_table, unreached_list
from page.view import View

STYLE = (pathlib.Path(__file__).resolve().parent / "style.css").read_text()
PARTS = (summary, unreached_list, trap_table, function_table, cut_list, source_text, leaf_list, fork_list, listing)


def html(explored):
    view = View(explored)
    return page(f"{explored.program.path.name}: report", STYLE, *(part.part(view) for part in PARTS))
