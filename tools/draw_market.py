#!/usr/bin/env python3
"""Draws a network and a market for `sced clear`, by a seed.

    python3 draw_market.py --out DIR [options]
    SCED=/path/of/sced sh DIR/clear.sh [further options of clear] > report.txt

Needs python3 and numpy, with --reserve scipy too (Debian: python3-numpy, python3-scipy).

DIR gets case.m, ptdf.csv, lodf.csv, contingencies.csv, offers.csv, where asked for penalties.csv, reserves.csv and
unit_outages.csv, and the command clear.sh, which keeps the certificate in DIR/certificate.json. Files of these names
in DIR are written anew or, where the draw has no such table, removed. clear.sh works in DIR: the program is $SCED, a
full path, or else `sced` where the shell finds it. The same options and seed make the same files.

Options:
    --out DIR            the folder to write, made where it is not there
    --seed S             the draw (default 1); with one seed --scale, --tight, --factor and --floor change ratings alone
    --buses B            default 118, at least 3
    --branches L         default 171: a ring of all buses, and chords between drawn pairs of buses
    --outages K          default 141: so many branches, drawn, are listed as outages
    --blocks N           default 54: sell blocks, two or three a unit, 1.7 times the load in all
    --places P           places of shift factors and outage factors, 1 to 9 (default 3); above 6 clear.sh says
                         --factor-places 9
    --scale X            a rating is X times a drawn factor times the greatest flow that it meets in the dispatch of
                         greatest welfare without limits: RATE_A in the base, RATE_C over all outages of branches and
                         units (default 1); with 0 there are no ratings
    --tight SHARE        the share of branches whose ratings go by --scale; those of the others go by 1.5 (default 0.2)
    --factor LOW HIGH    the range of the drawn factor (default 1.0 1.1)
    --floor MW           no rating is less (default 10)
    --soft PENALTY       all limits give way: penalties.csv lets a flow exceed each by up to 100000 MW, at PENALTY for
                         each MW; without the option all limits are hard
    --reserve            some four of five units offer spinning reserve, and 8 of 100 MW of load are needed
    --lost-units U       so many units, drawn, may be lost, each picked up by two to four others (default 0)
    --number-bits BITS   127 or 1023 (default): what clear.sh asks for
"""
import argparse
import os
import random
import re
import sys
from dataclasses import dataclass
from typing import NamedTuple

try:
    import numpy as np
except ImportError:
    np = None

MW_PLACES = 1
MW_UNIT = 10 ** MW_PLACES  # loads, quantities and ratings are drawn in tenths of a MW
CENTS = 100                # prices are drawn in cents, shares in hundredths
LOOSE_SCALE = 1.5          # stands for --scale at a branch that is not tight
MOST_EXCESS = 100000       # MW by which a soft limit may be exceeded


class Block(NamedTuple):
    """A step of a unit's sell offer: units count from 0, the quantity is in tenths of a MW, the price in cents."""
    unit: int
    quantity: int
    price: int


class LostUnit(NamedTuple):
    """A unit that may be lost, and who picks up its output: pairs of a unit and its share in hundredths."""
    unit: int
    takers: list


@dataclass
class Network:
    """A drawn network. Buses and branches count from 0 here, from 1 in the files; bus 0 is the reference."""
    ends: list                  # of each branch the bus that it comes from and the bus that it goes to
    reactances: list            # of each branch
    outages: list               # the branches that are listed as outages, in rising order
    shift_factors: object       # by branch and bus, rounded to their places
    outage_factors: object      # by branch and place in the list of outages, rounded to their places


@dataclass
class Market:
    """A drawn market. Units count from 0 here, from 1 in the files; quantities are in tenths of a MW."""
    loads: list                 # of each bus
    unit_buses: list            # of each unit
    blocks: list                # those of one unit together, at rising prices
    rooms: list                 # of each unit the most that it puts out, all its blocks
    reserve_offers: list        # of units that offer reserve, as blocks
    reserve_need: int
    lost_units: list


def stop(message):
    sys.exit(f"draw_market.py: {message}")


def draws(seed, name):
    """A stream of draws of its own for each kind, so that no option moves the draws of another kind."""
    return random.Random(f"{seed} {name}")


def decimal(value, places):
    return f"{value:.{places}f}"


def megawatts(quantity):
    return decimal(quantity / MW_UNIT, MW_PLACES)


# The network


def draw_network(options):
    stream = draws(options.seed, "net")
    buses = options.buses
    ends = [(bus, (bus + 1) % buses) for bus in range(buses)]
    joined = {frozenset(pair) for pair in ends}
    while len(ends) < options.branches:
        pair = stream.sample(range(buses), 2)
        if frozenset(pair) not in joined:
            joined.add(frozenset(pair))
            ends.append(tuple(pair))
    reactances = [stream.randint(1000, 30000) / 100000 for _ in ends]
    # any branch of a ring with chords may be lost: the others still join all buses
    outages = sorted(stream.sample(range(len(ends)), options.outages))
    shift, outage = make_factors(buses, ends, reactances, outages, 10 ** options.places)
    return Network(ends, reactances, outages, shift, outage)


def make_factors(buses, ends, reactances, outages, scale):
    """The shift factors and outage factors of the direct-current model, rounded to whole parts of 1/scale.

    Shift factors: a branch carries the difference of the angles at its ends over its reactance, and what flows from a
    bus is what is injected there; so with the incidence matrix A (1 where a branch comes from, -1 where it goes to)
    and Y = A over the reactances, angles are the solution of (A' Y) angles = injections, that of the reference being 0,
    and flows are Y angles.
    Outage factors: one MW from end to end of the lost branch makes `transfer` on each branch, `own` on itself; what
    has to be injected at its ends so that the lost branch carries just that, 1 / (1 - own) for each MW of its flow,
    stands for its loss.
    """
    incidence = np.zeros((len(ends), buses))
    for branch, (start, end) in enumerate(ends):
        incidence[branch, start], incidence[branch, end] = 1, -1
    weighted = incidence / np.array(reactances)[:, None]
    shift = np.zeros((len(ends), buses))
    shift[:, 1:] = np.linalg.solve((incidence.T @ weighted)[1:, 1:], weighted[:, 1:].T).T
    transfer = shift[:, [ends[lost][0] for lost in outages]] - shift[:, [ends[lost][1] for lost in outages]]
    own = transfer[outages, range(len(outages))]
    if outages and (1 - own).min() <= 1e-9:
        stop("an outage parts the network in this draw: take another seed")
    shift = np.rint(shift * scale).astype(np.int64)
    outage = np.rint(transfer / (1 - own) * scale).astype(np.int64)
    for place, lost in enumerate(outages):
        outage[lost, place] = -scale  # what the lost branch carried is gone
    return shift / scale, outage / scale


# The market


def draw_steps(stream, blocks):
    """How many blocks each unit has: two or three, together `blocks`."""
    steps = []
    while sum(steps) < blocks:
        steps.append(min(stream.choice((2, 2, 3)), blocks - sum(steps)))
    if steps[-1] == 1 and len(steps) > 1:  # no unit has one block alone
        steps[-2:] = [steps[-2] - 1, 2] if steps[-2] == 3 else [3]
    return steps


def draw_market(options):
    stream = draws(options.seed, "market")
    buses = options.buses
    loads = [stream.randint(5 * MW_UNIT, 60 * MW_UNIT) if stream.random() < 0.85 else 0 for _ in range(buses)]
    steps = draw_steps(stream, options.blocks)
    units = len(steps)
    if units <= buses:
        unit_buses = stream.sample(range(buses), units)
    else:
        unit_buses = [stream.randrange(buses) for _ in range(units)]
    weights = [stream.uniform(0.5, 1.5) for _ in range(options.blocks)]
    offered = 1.7 * sum(loads)
    quantities = iter([max(1, round(offered * weight / sum(weights))) for weight in weights])
    blocks = []
    for unit, count in enumerate(steps):
        prices = sorted(stream.randint(10 * CENTS, 90 * CENTS) for _ in range(count))
        blocks += [Block(unit, next(quantities), price) for price in prices]
    rooms = [sum(block.quantity for block in blocks if block.unit == unit) for unit in range(units)]
    reserve_offers, need = draw_reserve(options, rooms, loads) if options.reserve else ([], 0)
    return Market(loads, unit_buses, blocks, rooms, reserve_offers, need, draw_lost_units(options, units))


def draw_reserve(options, rooms, loads):
    """Offers of reserve of some four of five units, each of a part of its room, and the need."""
    stream = draws(options.seed, "reserve")
    offers = [Block(unit, max(1, round(room * stream.uniform(0.1, 0.4))), stream.randint(0, 15 * CENTS))
              for unit, room in enumerate(rooms) if stream.random() < 0.8]
    need = round(0.08 * sum(loads))
    if sum(offer.quantity for offer in offers) <= need:
        stop("the offers of reserve do not meet the need in this draw: take another seed")
    return offers, need


def draw_lost_units(options, units):
    """Units that may be lost; the shares of their takers sum to 1."""
    if options.lost_units > (units if units > 1 else 0):
        stop(f"--lost-units: the draw has {units} units, and each that is lost needs another that picks up")
    stream = draws(options.seed, "lost")
    lost_units = []
    for unit in stream.sample(range(units), options.lost_units):
        others = [other for other in range(units) if other != unit]
        takers = stream.sample(others, min(units - 1, stream.randint(2, 4)))
        cuts = sorted(stream.sample(range(1, CENTS), len(takers) - 1))
        shares = [high - low for high, low in zip(cuts + [CENTS], [0] + cuts)]
        lost_units.append(LostUnit(unit, list(zip(takers, shares))))
    return lost_units


# The dispatch without limits, and ratings by its flows


def merit_order(market):
    """What of each block the dispatch of greatest welfare without limits accepts: the cheapest first."""
    left, accepted = sum(market.loads), [0] * len(market.blocks)
    for place in sorted(range(len(market.blocks)), key=lambda at: (market.blocks[at].price, at)):
        accepted[place] = min(left, market.blocks[place].quantity)
        left -= accepted[place]
    if left:
        stop("the offers do not meet the load in this draw: take another seed")
    return accepted


def dispatch_with_reserve(market):
    """The same where reserve is cleared too: a linear program, solved by HiGHS.

    What a unit sells and keeps ready together is at most its room, and the reserve is at least the need.
    """
    try:
        from scipy.optimize import linprog
    except ImportError:
        stop("--reserve needs scipy (Debian: python3-scipy)")
    offers = market.blocks + market.reserve_offers
    at_most = np.zeros((1 + len(market.rooms), len(offers)))
    at_most[0, len(market.blocks):] = -1
    for column, offer in enumerate(offers):
        at_most[1 + offer.unit, column] = 1
    sold = [1] * len(market.blocks) + [0] * len(market.reserve_offers)
    result = linprog([offer.price for offer in offers], A_ub=at_most, b_ub=[-market.reserve_need] + market.rooms,
                     A_eq=[sold], b_eq=[sum(market.loads)], bounds=[(0, offer.quantity) for offer in offers],
                     method="highs-ds")
    if result.status != 0:
        stop(f"no dispatch meets the load and the need of reserve in this draw: {result.message}")
    return list(result.x[:len(market.blocks)])


def greatest_flows(network, market):
    """Of each branch the flow in the base, and the size of its greatest flow after an outage, in MW.

    After the loss of branch k branch m carries flow_m + (outage factor of m and k) * flow_k. After the loss of a unit
    its output is put in at its takers' buses by their shares, and no more at its own.
    """
    accepted = dispatch_with_reserve(market) if market.reserve_offers else merit_order(market)
    outputs = np.zeros(len(market.rooms))
    for block, quantity in zip(market.blocks, accepted):
        outputs[block.unit] += quantity / MW_UNIT
    injections = -np.array(market.loads, float) / MW_UNIT
    np.add.at(injections, market.unit_buses, outputs)
    shift = network.shift_factors
    base = shift @ injections
    sizes = np.abs(base[:, None] + network.outage_factors * base[network.outages])
    for place, lost in enumerate(network.outages):
        sizes[lost, place] = 0
    greatest = sizes.max(axis=1) if network.outages else np.zeros(len(base))
    for lost in market.lost_units:
        taken = sum(share / CENTS * shift[:, market.unit_buses[taker]] for taker, share in lost.takers)
        moved = taken - shift[:, market.unit_buses[lost.unit]]
        greatest = np.maximum(greatest, np.abs(base + moved * outputs[lost.unit]))
    return base, greatest


def draw_ratings(options, network, market):
    """RATE_A and RATE_C of each branch in MW, 0 where there are none."""
    base, greatest = greatest_flows(network, market)
    stream = draws(options.seed, "ratings")
    factors = [(stream.uniform(*options.factor), stream.uniform(*options.factor)) for _ in network.ends]
    scales = [options.scale if stream.random() < options.tight else LOOSE_SCALE for _ in network.ends]
    if options.scale == 0:
        return [(0, 0)] * len(network.ends)

    def rating(flow):  # rounded up to tenths, so that with --scale 1 no flow exceeds it
        return max(options.floor, 1 / MW_UNIT, float(np.ceil(flow * MW_UNIT - 1e-9)) / MW_UNIT)

    return [(rating(scale * for_base * abs(flow)), rating(scale * for_post * most))
            for scale, (for_base, for_post), flow, most in zip(scales, factors, base, greatest)]


# The files


def case_lines(network, market, ratings, words):
    lines = ["function mpc = drawn", f"% drawn by draw_market.py {words}".rstrip(),
             "mpc.version = '2';", "mpc.baseMVA = 100;", "mpc.bus = ["]
    for bus, load in enumerate(market.loads):
        lines.append(f"{bus + 1} {3 if bus == 0 else 1} {megawatts(load)} 0 0 0 1 1 0 230 1 1.1 0.9;")
    lines += ["];", "mpc.gen = ["]
    for bus, room in zip(market.unit_buses, market.rooms):
        lines.append(f"{bus + 1} 0 0 0 0 1 100 1 {megawatts(room)} 0;")
    lines += ["];", "mpc.branch = ["]
    for (start, end), reactance, (base, post) in zip(network.ends, network.reactances, ratings):
        lines.append(f"{start + 1} {end + 1} 0 {decimal(reactance, 5)} 0 {decimal(base, MW_PLACES)} 0 "
                     f"{decimal(post, MW_PLACES)} 0 0 1 -360 360;")
    return lines + ["];"]


def factor_tables(network, places):
    shift, outage = network.shift_factors, network.outage_factors
    branches, buses = shift.shape
    ptdf, lodf = ["branch,bus,factor"], ["branch,outage,factor"]
    for bus in range(1, buses):  # those of the reference are 0 and need no records
        ptdf += [f"{branch + 1},{bus + 1},{decimal(shift[branch, bus], places)}" for branch in range(branches)]
    for place, lost in enumerate(network.outages):
        lodf += [f"{branch + 1},{lost + 1},{decimal(outage[branch, place], places)}"
                 for branch in range(branches) if branch != lost]
    return ptdf, lodf


def market_tables(options, network, market):
    """The tables by name; None stands for one that this draw does not have."""
    tables = {"contingencies.csv": ["branch"] + [str(lost + 1) for lost in network.outages]}
    tables["offers.csv"] = ["unit,side,mw,price"] + [
        f"{unit + 1},sell,{megawatts(quantity)},{price / CENTS:.2f}" for unit, quantity, price in market.blocks]
    tables["penalties.csv"] = tables["reserves.csv"] = tables["unit_outages.csv"] = None
    if options.soft is not None and options.scale > 0:  # without ratings there is no limit that could give way
        tables["penalties.csv"] = ["branch,limit,price,excess"] + [
            f"{branch + 1},{limit},{options.soft},{MOST_EXCESS}"
            for branch in range(len(network.ends)) for limit in ("base", "post")]
    if market.reserve_offers:
        offers = [f"offer,{unit + 1},{megawatts(quantity)},{price / CENTS:.2f}"
                  for unit, quantity, price in market.reserve_offers]
        need = f"need,,{megawatts(market.reserve_need)},"
        tables["reserves.csv"] = ["kind,unit,mw,price"] + offers + [need]
    if market.lost_units:
        tables["unit_outages.csv"] = ["unit,taker,share"] + [
            f"{lost.unit + 1},{taker + 1},{share / CENTS:.2f}"
            for lost in market.lost_units for taker, share in lost.takers]
    return tables


def clear_script(options, tables):
    words = ["--case case.m --ptdf ptdf.csv --lodf lodf.csv --contingencies contingencies.csv --offers offers.csv"]
    for name in ("penalties", "reserves", "unit_outages"):
        if tables[f"{name}.csv"] is not None:
            words.append(f"--{name.replace('_', '-')} {name}.csv")
    words.append("--certificate certificate.json")
    if options.places > 6:
        words.append("--factor-places 9")
    if options.number_bits != 127:  # without the option numbers have 127 bits
        words.append(f"--number-bits {options.number_bits}")
    return ["#!/bin/sh", 'cd "$(dirname "$0")" || exit', f'exec "${{SCED:-sced}}" clear {" ".join(words)} "$@"']


def write_files(options, network, market, ratings):
    files = {"case.m": case_lines(network, market, ratings, options.words)}
    files["ptdf.csv"], files["lodf.csv"] = factor_tables(network, options.places)
    files.update(market_tables(options, network, market))
    files["clear.sh"] = clear_script(options, files)
    os.makedirs(options.out, exist_ok=True)
    for name, lines in files.items():
        path = os.path.join(options.out, name)
        if lines is not None:
            with open(path, "w", encoding="utf-8", newline="\n") as file:
                file.write("\n".join(lines) + "\n")
        elif os.path.exists(path):  # of an earlier draw
            os.remove(path)


# The words


def penalty(text):
    """A penalty goes to the table as it is written."""
    if not re.fullmatch(r"\d+(\.\d+)?", text) or float(text) == 0:
        raise argparse.ArgumentTypeError("a decimal above 0 is wanted")
    return text


def words_without_out(words):
    """What the case tells of the draw: all words but --out and its folder, on one line."""
    kept = []
    for place, word in enumerate(words):
        if word != "--out" and not word.startswith("--out=") and (place == 0 or words[place - 1] != "--out"):
            kept.append(word)
    return " ".join(" ".join(kept).split())


def read_options(words):
    parser = argparse.ArgumentParser(
        usage="draw_market.py --out DIR [options]", description=__doc__, allow_abbrev=False,
        formatter_class=argparse.RawDescriptionHelpFormatter)

    def option(name, **how):  # told by the module's docstring
        parser.add_argument(name, help=argparse.SUPPRESS, **how)

    option("--out", required=True)
    for name, default in (("--seed", 1), ("--buses", 118), ("--branches", 171), ("--outages", 141), ("--blocks", 54),
                          ("--places", 3), ("--lost-units", 0)):
        option(name, type=int, default=default)
    for name, default in (("--scale", 1.0), ("--tight", 0.2), ("--floor", 10.0)):
        option(name, type=float, default=default)
    option("--factor", type=float, nargs=2, default=(1.0, 1.1))
    option("--soft", type=penalty)
    option("--reserve", action="store_true")
    option("--number-bits", type=int, choices=(127, 1023), default=1023)
    options = parser.parse_args(words)
    options.words = words_without_out(words)
    for holds, rule in (
            (options.buses >= 3, "--buses is at least 3"),
            (options.buses <= options.branches <= options.buses * (options.buses - 1) // 2,
             "--branches is at least --buses, and at most the number of pairs of buses"),
            (0 <= options.outages <= options.branches, "--outages is at most --branches"),
            (options.blocks >= 2, "--blocks is at least 2"),
            (1 <= options.places <= 9, "--places is from 1 to 9"),
            (options.lost_units >= 0, "--lost-units is at least 0"),
            (options.scale >= 0, "--scale is at least 0")):
        if not holds:
            parser.error(rule)
    return options


def summary(options, network, market, ratings):
    branches, lost_units = len(network.ends), len(market.lost_units)
    rows = branches + len(network.outages) * (branches - 1) + lost_units * branches if options.scale > 0 else 0
    offered = sum(block.quantity for block in market.blocks)
    return (f"{len(market.loads)} buses, {branches} branches, {len(network.outages)} outages,"
            f" {len(market.rooms)} units, {len(market.blocks)} blocks, {lost_units} lost units,"
            f" {len(market.reserve_offers)} offers of reserve, {rows} limit rows;"
            f" load {sum(market.loads) / MW_UNIT:g} MW, offered {offered / MW_UNIT:g} MW;"
            f" ratings at the floor: {sum(base == options.floor for base, _ in ratings)} in the base,"
            f" {sum(post == options.floor for _, post in ratings)} after outages")


def main():
    options = read_options(sys.argv[1:])
    if np is None:
        stop("needs numpy (Debian: python3-numpy), with --reserve scipy too (python3-scipy)")
    network = draw_network(options)
    market = draw_market(options)
    ratings = draw_ratings(options, network, market)
    write_files(options, network, market, ratings)
    print(summary(options, network, market, ratings))


if __name__ == "__main__":
    main()
