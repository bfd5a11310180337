"""What is asked of lists in more than one place."""


def split_at(marks, items):
    """The runs of items between marks, of which there is one more than marks."""
    runs = [[]]
    for item in items:
        if item in marks:
            runs.append([])
        else:
            runs[-1].append(item)
    return runs
