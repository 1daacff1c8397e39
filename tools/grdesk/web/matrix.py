"""The pairwise counts of all options of a closed vote, made from the ballots of its tally. Those of kept options are
held against the result."""
from grdesk.desk.rank import preference_of
from grdesk.error import Failed
from grdesk.web.html import cell, isolated, table

# Where there are more options, the columns stand in blocks of so many.
MOST_COLUMNS = 12


def counts_of(vote):
    """How many voters prefer the one to the other (Constitution, A.5.3.1), for each two options, both ways."""
    ballots = [[preference_of(mark) for mark in ranks] for ranks, _ in vote.ballots]
    places = list(vote.options)
    if any(len(ranks) != len(places) for ranks in ballots):
        raise Failed("a ballot of the tally has more or fewer ranks than there are options, so what answers is no desk")
    counts = {(a, b): sum(ranks[a - 1] < ranks[b - 1] for ranks in ballots) for a in places for b in places if a != b}
    for pair, count in vote.preferred.items():
        if counts[pair] != count:
            message = f"the ballots of the tally have {counts[pair]}, and its result has {count}"
            raise Failed(f"of the voters who prefer option {pair[0]} to option {pair[1]} {message}")
    return counts


def matrix(vote):
    """How many voters prefer the option of a row to that of a column. Options that are not kept stand after the
    others."""
    counts, kept = counts_of(vote), vote.kept_options()
    places = [*kept, *(place for place in vote.options if place not in kept)]
    size = len(places) if len(places) <= MOST_COLUMNS else MOST_COLUMNS
    blocks = [places[begin : begin + size] for begin in range(0, len(places), size)]
    message = "How many voters prefer the option of a row to that of a column"
    message += ", with the options that were not kept in italics after the others" if len(kept) < len(places) else ""
    tables = []
    for number, columns in enumerate(blocks, start=1):
        caption = message if len(blocks) == 1 else f"{message}: part {number} of {len(blocks)}"
        head = [cell("Option", "th", scope="col"), *(heading(place, kept) for place in columns)]
        tables.append(table(caption, head, [row(vote, place, columns, counts, kept) for place in places]))
    return "\n".join(tables)


def heading(place, kept):
    return cell(place, "th", scope="col", class_=None if place in kept else "apart")


def row(vote, place, columns, counts, kept):
    name = f"{place} {isolated(vote.options[place])}"
    cells = cell(name, "th", scope="row", class_=None if place in kept else "apart")
    for other in columns:
        if other == place:
            cells += cell("", class_="none")
            continue
        count, against = counts[place, other], counts[other, place]
        kind = "number more" if count > against else "number"
        if place in kept and other in kept:
            cells += cell(count, id=f"pair-{place}-{other}", class_=kind)
        else:
            cells += cell(count, id=f"apart-{place}-{other}", class_=f"{kind} apart")
    return cell(cells, "tr")
