"""Sources such as people write, some of any size."""

from pathlib import Path

TOP = Path(__file__).resolve().parent.parent
HOSTS = ("alice", "bob", "carol", "dave")
PRINCIPALS = ("A", "B", "C", "D")


def headed(hosts, lines):
    """A source of so many hosts that keep their secrets apart and trust each other to compute, with these statements."""
    all_of_them = " & ".join(PRINCIPALS[:hosts])
    head = [f"principals {', '.join(PRINCIPALS[:hosts])};"]
    head += [f"host {host} {{{own} ; {all_of_them}}};" for host, own in zip(HOSTS[:hosts], PRINCIPALS)]
    return "\n".join([*head, "main {", *(f"  {line}" for line in lines), "}"]) + "\n"


def told(hosts, names):
    return [f"output {name} to {host};" for name in names for host in HOSTS[:hosts]]


def anyone(hosts):
    return "{" + " | ".join(PRINCIPALS[:hosts]) + "}"


def chain(segments, hosts):
    """A word to which numbers are added one after the other; each host may read all."""
    head = ["principals P;", *(f"host {host} {{P ; P}};" for host in HOSTS[:hosts]), "main {"]
    total = " + ".join(map(str, range(segments)))
    return "\n".join([*head, "  let x = input(alice);", f"  output x + {total} to bob;", "}"]) + "\n"


def dot(length):
    """The product of two vectors."""
    lines = [f"let x{k} = input(alice);" for k in range(length)]
    lines += [f"let y{k} = input(bob);" for k in range(length)]
    lines += [f"let product = declassify({' + '.join(f'x{k} * y{k}' for k in range(length))}, {anyone(2)});"]
    return headed(2, lines + told(2, ["product"]))


def nearest(points, dimensions):
    """The least squared distance of a point of bob to points of alice."""
    lines = [f"let y{d} = input(bob);" for d in range(dimensions)]
    for p in range(points):
        lines += [f"let x{p}_{d} = input(alice);" for d in range(dimensions)]
        lines += [f"let e{p}_{d} = x{p}_{d} - y{d};" for d in range(dimensions)]
        lines += [f"let s{p} = {' + '.join(f'e{p}_{d} * e{p}_{d}' for d in range(dimensions))};"]
        lines += [f"let best{p} = {f'min(best{p - 1}, s{p})' if p else 's0 + 0'};"]
    return headed(2, [*lines, f"let least = declassify(best{points - 1}, {anyone(2)});", *told(2, ["least"])])


def statistics(values):
    """Sum, sum of squares, least and greatest of values that two hosts have by turns, without a loop."""
    lines = ["var sum: word = 0;", "var squares: word = 0;", "var least: word = 4294967295;", "var greatest: word = 0;"]
    for k in range(values):
        lines += [
            f"let x{k} = input({HOSTS[k % 2]});",
            f"sum := sum + x{k};",
            f"squares := squares + x{k} * x{k};",
            f"least := min(least, x{k});",
            f"greatest := max(greatest, x{k});",
        ]
    names = ("sum", "squares", "least", "greatest")
    lines += [f"let all_{name} = declassify({name}, {anyone(2)});" for name in names]
    lines += [f"let mean = all_sum / {values};", f"let variance = all_squares / {values} - mean * mean;"]
    return headed(2, lines + told(2, ["mean", "variance", "all_least", "all_greatest"]))


def open_means(points, rounds):
    """Two groups by k-means of points that two hosts have by turns; both means are told after each round."""
    lines = [f"let x{k} = input({HOSTS[k % 2]});" for k in range(points)]
    own = {host: [k for k in range(points) if HOSTS[k % 2] == host] for host in HOSTS[:2]}
    lines += [f"let all_{host} = {' + '.join(f'x{k}' for k in own[host])};" for host in own]
    lines += ["var low: word = 10;", "var high: word = 90;"]
    for r in range(rounds):
        lines += [f"let middle{r} = (low + high) / 2;"]
        lines += [f"let is_high{r}_{k} = middle{r} < x{k};" for k in range(points)]
        for host in own:
            lines += [f"let sum{r}_{host} = {' + '.join(f'mux(is_high{r}_{k}, x{k}, 0)' for k in own[host])};"]
            lines += [f"let count{r}_{host} = {' + '.join(f'mux(is_high{r}_{k}, 1, 0)' for k in own[host])};"]
        both = f"declassify(sum{r}_alice + sum{r}_bob, {anyone(2)})"
        others = f"declassify((all_alice - sum{r}_alice) + (all_bob - sum{r}_bob), {anyone(2)})"
        lines += [f"let count{r} = declassify(count{r}_alice + count{r}_bob, {anyone(2)});"]
        lines += [f"high := {both} / count{r};", f"low := {others} / ({points} - count{r});"]
    return headed(2, [*lines, *told(2, ["low", "high"])])


def sealed_means(points):
    """One round of k-means of points of alice and two secret means of bob, without a loop."""
    lines = ["let low = input(bob);", "let high = input(bob);", "let middle = low + high;"]
    lines += [f"let x{k} = input(alice);" for k in range(points)]
    lines += [f"let is_high{k} = middle < x{k} * 2;" for k in range(points)]
    lines += [f"let sum = declassify({' + '.join(f'mux(is_high{k}, x{k}, 0)' for k in range(points))}, {anyone(2)});"]
    lines += [f"let count = declassify({' + '.join(f'mux(is_high{k}, 1, 0)' for k in range(points))}, {anyone(2)});"]
    return headed(2, [*lines, "let mean = sum / count;", *told(2, ["mean", "count"])])


def common(length):
    """How many of the numbers of two hosts are the same."""
    lines = [f"let x{k} = input(alice);" for k in range(length)]
    lines += [f"let y{k} = input(bob);" for k in range(length)]
    lines += ["var count: word = 0;"]
    for j in range(length):
        tests = " | ".join(f"(x{j} == y{k})" for k in range(length))
        lines += [f"count := count + mux({tests}, 1, 0);"]
    return headed(2, [*lines, f"let found = declassify(count, {anyone(2)});", *told(2, ["found"])])


def shares(hosts):
    """The sum of the squared shares of a market, in ten thousandths, after the sales of all are told."""
    lines = [f"let s{k} = input({HOSTS[k]});" for k in range(hosts)]
    told_sales = [f"declassify(s{k}, {anyone(hosts)})" for k in range(hosts)]
    lines += [f"let sales = {' + '.join(told_sales)};"]
    lines += [f"let p{k} = s{k} * 100 / sales;" for k in range(hosts)]
    lines += [f"let index = {' + '.join(f'declassify(p{k} * p{k}, {anyone(hosts)})' for k in range(hosts))};"]
    return headed(hosts, lines + told(hosts, ["index"]))


def middle(words):
    """The median of two ordered lists, which stand in arrays that are halved under public branches."""
    lines = []
    for array, host in (("a", "alice"), ("b", "bob")):
        lines += [f"array {array}: word[{words}];", f"for i to {words} {{", f"  {array}[i] := input({host});", "}"]
    lines += ["var p: word = 0;", "var q: word = 0;"]
    half = words // 2
    while half:
        lines += [
            f"if (declassify(a[p + {half - 1}] < b[q + {half - 1}], {anyone(2)})) {{",
            f"  p := p + {half};",
            "} else {",
            f"  q := q + {half};",
            "}",
        ]
        half //= 2
    return headed(2, [*lines, f"let median = declassify(min(a[p], b[q]), {anyone(2)});", *told(2, ["median"])])


def ordered(words):
    """The median of words that two hosts have by turns, by exchanging neighbours until all are in order; nothing else is told."""
    lines = [f"var x{k}: word = input({HOSTS[k % 2]});" for k in range(words)]
    for turn in range(words):
        for k in range(turn % 2, words - 1, 2):
            lines += [f"let t{turn}_{k} = min(x{k}, x{k + 1});", f"x{k + 1} := max(x{k}, x{k + 1});", f"x{k} := t{turn}_{k};"]
    return headed(2, [*lines, f"let median = declassify(x{words // 2}, {anyone(2)});", *told(2, ["median"])])


def guesses(turns):
    """A number of alice that bob guesses; each time both are told, by public branches, whether it is less, more or found."""
    lines = ["let secret = input(alice);"]
    for k in range(turns):
        lines += [
            f"let guess{k} = input(bob);",
            f"if (declassify(secret < guess{k}, {anyone(2)})) {{",
            "  output 1 to bob;",
            "} else {",
            f"  if (declassify(guess{k} < secret, {anyone(2)})) {{",
            "    output 2 to bob;",
            "  } else {",
            "    output 0 to bob;",
            "    output 0 to alice;",
            "  }",
            "}",
        ]
    return headed(2, lines)


def folder_sources():
    """The sources of examples/ that have a choice, and those of bench/auctions."""
    for choice in sorted((TOP / "examples").glob("*/choice")):
        yield f"`examples/{choice.parent.name}`", (choice.parent / "source.via").read_text()
    for auction in sorted((TOP / "bench" / "auctions").glob("*.via")):
        yield f"`bench/auctions/{auction.name}`", auction.read_text()


def sized_sources():
    """Sources of growing size: their names and texts."""
    for segments in (10, 50, 100):
        for hosts in (2, 3):
            yield f"chain of {segments} sums, {hosts} hosts", chain(segments, hosts)
    for length in (8, 32):
        yield f"product of vectors of {length}", dot(length)
    for points, dimensions in ((2, 2), (8, 2), (16, 2), (20, 3)):
        yield f"nearest of {points} points in {dimensions} dimensions", nearest(points, dimensions)
    for values in (4, 10, 30):
        yield f"statistics of {values}, no loop", statistics(values)
    for points, rounds in ((4, 1), (8, 2), (14, 3)):
        yield f"k-means of {points} points, {rounds} rounds, means told", open_means(points, rounds)
    for points in (4, 8, 16):
        yield f"k-means of {points} points, secret means", sealed_means(points)
    for length in (3, 6):
        yield f"common numbers of {length} and {length}", common(length)
    for hosts in (2, 3, 4):
        yield f"market shares of {hosts}", shares(hosts)
    for words in (4, 8, 32):
        yield f"median of two lists of {words}, arrays", middle(words)
    for words in (5, 9):
        yield f"median of {words} by order", ordered(words)
    for turns in (1, 4, 16):
        yield f"guesses, {turns}", guesses(turns)
