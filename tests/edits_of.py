"""Edits of text, as tests/bend and tests/wrong read them: lines `file:`, `old:`, `new:`, for tests/wrong also `in:`, `name:`, `gone:`, and others that a reader asks for."""
import re

# errors that say that a text does not fit, and not that a fact fails
UNFIT = re.compile(r"is not in scope|can be named from here|is no item that|is no name|has no field|cannot be unfolded here|write the clause|no clause covers|explicit fields, and this pattern"
                   r"|is not a constructor|operand is missing|expected the end|cannot continue|exports no|has no file|unresolved import", re.I)


def groups_of(path, others=None):
    """the groups of an edit; what stands under other words goes to others, a dictionary or a list of pairs"""
    groups = []
    for line in path.read_text().splitlines():
        key, _, value = line.partition(": ")
        if key == "file":
            groups.append({"file": value})
        elif key == "old" and "old" in groups[-1]:
            groups.append({"file": groups[-1]["file"], "old": value})
        elif key in ("old", "new", "in"):
            groups[-1][key] = value
        elif isinstance(others, list):
            others.append((key, value))
        elif others is not None:
            others[key] = value
    return groups
