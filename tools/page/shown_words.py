"""Which of a program's words the listing shows: all that tests execute, and the ends of what they don't."""
import collections

# Of words in a row that no test executes so many are shown at each end; and so many of all words.
AT_ENDS, MOST_WORDS = 6, 4_000
# Words that are shown, of a function or a part of it, and how many were left out before them. Where `functions` isn't 0, these are
# so many functions that no test passes, the first of which is named, and none of their words is shown.
Shown = collections.namedtuple("Shown", "function left_out words functions")


def shown_words(explored):
    """What is shown, and how many words behind that are left out."""
    found, left, rows = [], MOST_WORDS, iter(explored.functions.rows)
    least = 2 * AT_ENDS if len(explored.program.words) <= MOST_WORDS else 0
    for function in rows:
        parts = shown_of(function, explored, least)
        if found and found[-1].functions and parts[0].functions:
            parts = [merged(found.pop(), parts[0])]
        found += parts
        left -= sum(len(part.words) for part in parts)
        if left < 0:
            break
    return found, sum(len(function.words) for function in rows)


def merged(one, other):
    return one._replace(left_out=one.left_out + other.left_out, functions=one.functions + 1)


def shown_of(function, explored, least):
    """A function in parts; of one that no test passes, and that has more than the least number of words, their number alone."""
    if not explored.passes[function.start] and len(function.words) > least:
        return [Shown(function, len(function.words), [], 1)]
    parts, row = [Shown(function, 0, [], 0)], []
    for word in function.words:
        if not explored.coverage.executed[word[0]]:
            row.append(word)
            continue
        parts = added(parts, row)
        parts[-1].words.append(word)
        row = []
    return added(parts, row)


def added(parts, row):
    """The parts, and words in a row that no test executes."""
    if len(row) <= 2 * AT_ENDS + 1:
        parts[-1].words.extend(row)
        return parts
    parts[-1].words.extend(row[:AT_ENDS])
    return [*parts, Shown(parts[-1].function, len(row) - 2 * AT_ENDS, row[-AT_ENDS:], 0)]
