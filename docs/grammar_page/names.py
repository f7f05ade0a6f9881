"""Reads the table of names: which rules have an entry, and what the Reference calls them."""


def read_names(path):
    """The modules in the order of the page, and for each rule that is named the words after its name."""
    modules, names = [], {}
    with open(path, encoding='utf-8') as file:
        for line in file:
            words = line.split()
            if not words or line.startswith('#'):
                continue
            if line.startswith(' '):
                names.setdefault((modules[-1], words[0]), []).extend(words[1:])
            else:
                modules.append(words[0])
    return modules, names
