#!/usr/bin/env python3
"""Checks a report of `sced clear` from outside.

    python3 check_answer.py DIR REPORT CERTIFICATE [--no-lp] [--no-exact] [--all-rows]
    python3 check_answer.py --words "--case F --ptdf F .." REPORT CERTIFICATE [..]

Needs python3, numpy and scipy (Debian: python3-numpy, python3-scipy); with --no-lp neither of the two.

REPORT is what `clear` printed, CERTIFICATE what it wrote by --certificate. The files of the market are those that the
script DIR/clear.sh hands to `clear`, relative to DIR, or those of --words, with the options of `clear`: --case, --ptdf,
--offers and, where they were given, --lodf, --contingencies, --unit-outages, --reserves, --offsets, --penalties,
--post-rating and --factor-places; others are passed over.

Exact: in fractions, of the certificate and the files of the market, that the dispatch is feasible, that the duals
support it (docs/CERTIFICATES.md), and that its welfare is the value of the dual program; where nothing is feasible,
that the duals show that; and that each line of the report is what the certificate makes of it.
Linear program: HiGHS solves the market in floating point, and the welfare of the report is its optimum; or it finds
nothing feasible either. Limits are added as they are passed, until none is.
Not checked: which of several best dispatches, or of several sets of duals, is printed.

Options:
    --no-lp       no linear program
    --no-exact    no exact checks; CERTIFICATE may be left out
    --all-rows    the linear program has all limit rows from the start

Status: 0 all holds; 1 something does not; 2 the report has no answer (`range`, `refused`, or it is empty); 3 nothing
was checked, since the words or a file of the market are at fault, or numpy or scipy is missing.
"""
import argparse
import csv
import json
import math
import os
import re
import shlex
import sys
import time
from dataclasses import dataclass
from fractions import Fraction
from operator import mul
from typing import NamedTuple

try:
    import numpy as np
    from scipy.optimize import linprog
    from scipy.sparse import coo_matrix
except ImportError:
    np = None

MW_PLACES, PRICE_PLACES, MONEY_PLACES = 9, 6, 15  # places of what is printed; a rest stands behind as a fraction
SHARE_SCALE = 10 ** 6                             # shares have six places at most
FILE_OPTIONS = ("case", "ptdf", "lodf", "contingencies", "unit-outages", "offers", "reserves", "offsets", "penalties")
BASE, AFTER, LOST = "base", "after", "lost"       # kinds of limit rows
SIDES = {"sell": 1, "buy": -1}
MW_TOLERANCE, DUAL_TOLERANCE = 1e-6, 1e-6         # of the linear program
PASSED = 1e-7                                     # MW by which a flow passes a limit so that its row is added
WELFARE_TOLERANCE = 1e-7                          # relative


class Failed(Exception):
    """A check does not hold; its text says which."""


class Unreadable(Exception):
    """The words or a file of the market cannot be used; the text says why."""


def check(holds, what):
    if not holds:
        raise Failed(what)


# The market, in exact numbers


class Row(NamedTuple):
    """A limit row: its branch, its kind, and the place of what is lost in the list of outages (AFTER) or of lost units
    (LOST), 0 in the base."""
    branch: int
    kind: str
    outage: int


class Block(NamedTuple):
    unit: int
    sign: int           # 1 of a sell, -1 of a buy
    quantity: Fraction
    price: Fraction
    number: int         # as the report counts, for each unit and side


class ReserveOffer(NamedTuple):
    unit: int
    quantity: Fraction
    price: Fraction


class Softness(NamedTuple):
    """How a limit gives way: the penalty for each MW beyond it, and the most excess; both 0 of a hard one."""
    penalty: Fraction
    excess: Fraction


def read_matrix(text, name):
    """The rows of mpc.NAME, as lists of words."""
    found = re.search(r"mpc\." + name + r"\s*=\s*\[(.*?)\]", text, re.S)
    if not found:
        raise Unreadable(f"the case has no mpc.{name}")
    rows = [re.split(r"[\s,]+", row.strip(" \t\r,")) for row in re.split(r"[;\n]", found.group(1))]
    return [row for row in rows if row != [""]]


def read_case(path):
    with open(path, encoding="latin-1") as file:
        text = file.read()
    text = re.sub(r"\.\.\..*\n", " ", re.sub(r"%.*", "", text))  # comments, then continuations
    return {name: read_matrix(text, name) for name in ("bus", "gen", "branch")}


def read_table(path):
    """The records under the header; a table that is not named has none."""
    if not path:
        return []
    with open(path, newline="", encoding="utf-8-sig") as file:
        return [record for record in csv.reader(file) if record][1:]


def whole(cell):
    try:
        return int(cell)
    except ValueError:
        return int(Fraction(cell))  # such as 1.0 or 1e0


def rating(cell):
    """A limit, or None: 0 and Inf are none."""
    return None if cell.lstrip("+").lower() == "inf" or Fraction(cell) == 0 else Fraction(cell)


def places_of(numbers):
    return {number: place for place, number in enumerate(numbers)}


class Market:
    """The market of the files. What is in service goes by its place in the lists `buses`, `units`, `branches`, from 0;
    these hold the numbers of buses and the rows of units and branches. Factors are integers in 10^-places."""

    def __init__(self, options):
        for name in ("case", "ptdf", "offers"):
            if name not in options:
                raise Unreadable(f"--{name} is missing")
        case = read_case(options["case"])
        self.places = int(options.get("factor-places", "6"))
        self.scale = 10 ** self.places
        self._read_buses(case)
        self._read_units(case)
        self._read_branches(case, options.get("post-rating", "c"))
        self._read_offsets(options)
        self._read_blocks(options)
        self._read_reserves(options)
        self._read_factors(options)
        self._read_lost_units(options)
        self._read_penalties(options)
        self.rows = list(self._limit_rows())

    def _read_buses(self, case):
        rows = [row for row in case["bus"] if Fraction(row[1]) != 4]  # type 4 is isolated
        self.buses = [whole(row[0]) for row in rows]
        self.demands = [Fraction(row[2]) + Fraction(row[4]) for row in rows]  # PD + GS
        self.bus_places = places_of(self.buses)

    def _read_units(self, case):
        """In service is a unit with a status above 0 at a bus in service. Its fixed part is the number of [PMIN, PMAX]
        nearest 0."""
        rows = [(number, row) for number, row in enumerate(case["gen"], 1)
                if Fraction(row[7]) > 0 and whole(row[0]) in self.bus_places]
        self.units = [number for number, _ in rows]
        self.unit_places = places_of(self.units)
        self.unit_buses = [self.bus_places[whole(row[0])] for _, row in rows]
        self.fixed_parts = [max(Fraction(row[9]), min(Fraction(row[8]), 0)) for _, row in rows]
        self.capacities = [Fraction(row[8]) for _, row in rows]

    def _read_branches(self, case, post):
        """In service is a branch with a status above 0 between buses in service. RATE_A limits it in the base, the
        rating of --post-rating after an outage."""
        column = {"a": 5, "b": 6, "c": 7}[post]
        rows = [(number, row) for number, row in enumerate(case["branch"], 1)
                if Fraction(row[10]) > 0 and whole(row[0]) in self.bus_places and whole(row[1]) in self.bus_places]
        self.branches = [number for number, _ in rows]
        self.branch_places = places_of(self.branches)
        self.base_limits = [rating(row[5]) for _, row in rows]
        self.post_limits = [rating(row[column]) for _, row in rows]

    def _read_offsets(self, options):
        self.offsets = [Fraction(0)] * len(self.branches)
        for branch, offset in read_table(options.get("offsets")):
            if whole(branch) in self.branch_places:
                self.offsets[self.branch_places[whole(branch)]] = Fraction(offset)

    def _read_blocks(self, options):
        self.blocks, count = [], {}
        for unit, side, quantity, price in read_table(options["offers"]):
            unit, sign = self.unit_places.get(whole(unit)), SIDES[side]
            if unit is not None:
                number = count[unit, sign] = count.get((unit, sign), 0) + 1
                self.blocks.append(Block(unit, sign, Fraction(quantity), Fraction(price), number))

    def _read_reserves(self, options):
        """A unit that offers reserve has a room: PMAX less its fixed part."""
        records = read_table(options.get("reserves"))
        self.has_reserve = bool(records)
        self.reserve_offers = [
            ReserveOffer(self.unit_places[whole(unit)], Fraction(quantity), Fraction(price))
            for kind, unit, quantity, price in records if kind == "offer" and whole(unit) in self.unit_places]
        self.need = sum((Fraction(record[2]) for record in records if record[0] == "need"), Fraction(0))
        self.rooms = {unit: self.capacities[unit] - self.fixed_parts[unit]
                      for unit in sorted({offer.unit for offer in self.reserve_offers})}

    def _read_factors(self, options):
        """A factor without a record is 0; one of a branch for its own loss is not used."""
        known = {}

        def factor(cell):
            if cell not in known:
                scaled = Fraction(cell) * self.scale
                if scaled.denominator != 1:
                    raise Unreadable(f"the factor {cell} has more than {self.places} places")
                known[cell] = int(scaled)
            return known[cell]

        self.shift_factors = [[0] * len(self.buses) for _ in self.branches]
        for branch, bus, cell in read_table(options["ptdf"]):
            branch, bus = self.branch_places.get(whole(branch)), self.bus_places.get(whole(bus))
            if branch is not None and bus is not None:
                self.shift_factors[branch][bus] = factor(cell)
        self.outages = [self.branch_places[whole(branch)] for (branch,) in read_table(options.get("contingencies"))]
        self.outage_places = places_of(self.outages)
        self.outage_factors = [[0] * len(self.branches) for _ in self.outages]  # by outage, then by branch
        for branch, lost, cell in read_table(options.get("lodf")):
            branch, lost = self.branch_places.get(whole(branch)), self.branch_places.get(whole(lost))
            if branch is not None and lost in self.outage_places and branch != lost:
                self.outage_factors[self.outage_places[lost]][branch] = factor(cell)

    def _read_lost_units(self, options):
        """The pickup of a branch is how much more flows over it for each MW of the lost unit's output: the shift
        factors at the takers' buses by their shares, less that at its own."""
        self.shares = {}
        for unit, taker, share in read_table(options.get("unit-outages")):
            takers = self.shares.setdefault(self.unit_places[whole(unit)], [])
            takers.append((self.unit_places[whole(taker)], Fraction(share)))
        self.lost_units = list(self.shares)
        self.lost_places = places_of(self.lost_units)
        for unit, takers in self.shares.items():
            if sum(share for _, share in takers) != 1 or any(SHARE_SCALE % share.denominator for _, share in takers):
                raise Unreadable(f"the shares of lost unit {self.units[unit]} do not sum to 1, or have over six places")
        self.pickups = [[self._pickup(factors, unit) for factors in self.shift_factors] for unit in self.lost_units]

    def _pickup(self, factors, unit):
        taken = sum(share * factors[self.unit_buses[taker]] for taker, share in self.shares[unit])
        return (taken - factors[self.unit_buses[unit]]) / self.scale

    def _read_penalties(self, options):
        soft = {(whole(branch), limit): Softness(Fraction(price), Fraction(excess))
                for branch, limit, price, excess in read_table(options.get("penalties"))}
        hard = Softness(Fraction(0), Fraction(0))
        self.base_softness = [soft.get((branch, "base"), hard) for branch in self.branches]
        self.post_softness = [soft.get((branch, "post"), hard) for branch in self.branches]

    def _limit_rows(self):
        """The rows in the market's order: the base, then outage by outage, of units last, each by branch."""
        for branch, limit in enumerate(self.base_limits):
            if limit is not None:
                yield Row(branch, BASE, 0)
        limited = [branch for branch, limit in enumerate(self.post_limits) if limit is not None]
        for outage, lost in enumerate(self.outages):
            yield from (Row(branch, AFTER, outage) for branch in limited if branch != lost)
        for outage in range(len(self.lost_units)):
            yield from (Row(branch, LOST, outage) for branch in limited)

    def limit(self, row):
        return self.base_limits[row.branch] if row.kind == BASE else self.post_limits[row.branch]

    def softness(self, row):
        return self.base_softness[row.branch] if row.kind == BASE else self.post_softness[row.branch]

    def name(self, row):
        """As the report names it."""
        branch = self.branches[row.branch]
        if row.kind == BASE:
            return f"{branch} base"
        if row.kind == AFTER:
            return f"{branch} after {self.branches[self.outages[row.outage]]}"
        return f"{branch} lost {self.units[self.lost_units[row.outage]]}"

    def summary(self):
        return (f"market: {len(self.buses)} buses, {len(self.branches)} branches, {len(self.outages)} outages, "
                f"{len(self.lost_units)} lost units, {len(self.blocks)} blocks, {len(self.reserve_offers)} offers of "
                f"reserve, {len(self.rows)} limit rows")


# The certificate, and what it makes of the market


def read_fraction(text):
    """Fractions stand in lowest terms, 0 as 0/1."""
    value = Fraction(text)
    check(text == f"{value.numerator}/{value.denominator}", f"the fraction {text} is not in lowest terms")
    return value


class Certificate:
    """A certificate in MW and prices: of kind optimal it has MW in 10^-9 and prices in 10^-6, of kind farkas plain
    numbers, and no dispatch: nothing is accepted."""

    def __init__(self, market, content):
        self.optimal = content["kind"] == "optimal"
        check(content["kind"] in ("optimal", "farkas"), "kind of the certificate")
        check(content["version"] == (3 if market.has_reserve else 2), "the version is 3 where there is reserve, else 2")
        check(content["places"] == market.places, "places of the certificate")
        self.unit = 10 ** PRICE_PLACES if self.optimal else 1
        self.energy = read_fraction(content["energy"]) / self.unit
        self._read_limits(market, content["limits"])
        reserve = content["reserve"] if market.has_reserve else {"price": "0/1", "quantities": [], "units": []}
        self.accepted = self._quantities(market.blocks, content.get("blocks"))
        self.reserve_accepted = self._quantities(market.reserve_offers, reserve.get("quantities"))
        self.reserve_price = read_fraction(reserve["price"]) / self.unit
        self.room_duals = {}
        for entry in reserve["units"]:
            unit = market.unit_places.get(entry["unit"])
            check(unit in market.rooms, f"unit {entry['unit']} has a dual, but offers no reserve")
            check(unit not in self.room_duals, f"unit {entry['unit']} is named twice")
            self.room_duals[unit] = read_fraction(entry["dual"]) / self.unit
        check(self.reserve_price >= 0, "the price of reserve is below 0")
        check(all(dual >= 0 for dual in self.room_duals.values()), "the dual of a room is below 0")

    def _quantities(self, offers, texts):
        if not self.optimal:
            return [Fraction(0)] * len(offers)
        check(len(texts) == len(offers), "there is not one quantity for each block and each offer of reserve")
        return [read_fraction(text) / 10 ** MW_PLACES for text in texts]

    def _read_limits(self, market, entries):
        """Duals of limit rows, up and down; a row that is not named has 0."""
        known = set(market.rows)
        self.limit_duals = {}
        for entry in entries:
            branch, lost_branch, lost_unit = entry["branch"], entry["outage"], entry.get("unit", 0)
            check(not (lost_branch and lost_unit), f"a branch and a unit are lost together: {entry}")
            kind, outage = BASE, 0
            if lost_branch:
                kind, outage = AFTER, market.outage_places.get(market.branch_places.get(lost_branch))
            elif lost_unit:
                kind, outage = LOST, market.lost_places.get(market.unit_places.get(lost_unit))
            row = Row(market.branch_places.get(branch), kind, outage)
            check(row in known, f"the market has no such limit row: {entry}")
            check(row not in self.limit_duals, f"a limit row is named twice: {entry}")
            up, down = read_fraction(entry["up"]) / self.unit, read_fraction(entry["down"]) / self.unit
            check(up >= 0 and down >= 0, f"the dual of a limit is below 0: {entry}")
            self.limit_duals[row] = (up, down)


def over_common_denominator(values):
    """Integers and the denominator that they all have."""
    denominator = 1
    for value in values:
        denominator = denominator * value.denominator // math.gcd(denominator, value.denominator)
    return [value.numerator * (denominator // value.denominator) for value in values], denominator


class Flows:
    """What accepted quantities make of the network: injections, outputs, and the flow of each limit row asked for, as a
    numerator over one denominator, since sums of integers are quick."""

    def __init__(self, market, accepted, rows):
        self.outputs = list(market.fixed_parts)  # output = fixed part + what its blocks sell - what they buy
        for block, quantity in zip(market.blocks, accepted):
            self.outputs[block.unit] += block.sign * quantity
        self.injections = [-demand for demand in market.demands]
        for unit, bus in enumerate(market.unit_buses):
            self.injections[bus] += self.outputs[unit]
        parts, common = over_common_denominator(self.injections + market.offsets + self.outputs)
        buses, branches = len(market.buses), len(market.branches)
        injections, offsets = parts[:buses], parts[buses:buses + branches]
        self._outputs = parts[buses + branches:]
        # base flow = offset + sum of shift factor * injection, over common * scale
        self._base = [market.scale * offset + sum(map(mul, factors, injections))
                      for factors, offset in zip(market.shift_factors, offsets)]
        # pickups as integers in 10^-places * 10^-6
        self._pickups = [[int(pickup * market.scale * SHARE_SCALE) for pickup in pickups] for pickups in market.pickups]
        self.denominator = common * market.scale * market.scale * SHARE_SCALE
        self.numerators = {row: self._numerator(market, row) for row in rows}

    def _numerator(self, market, row):
        """After the loss of branch k: flow of the base + outage factor * base flow of k. After the loss of a unit: flow
        of the base + pickup * its output."""
        base = self._base[row.branch] * market.scale * SHARE_SCALE
        if row.kind == AFTER:
            factor = market.outage_factors[row.outage][row.branch]
            return base + factor * self._base[market.outages[row.outage]] * SHARE_SCALE
        if row.kind == LOST:
            output = self._outputs[market.lost_units[row.outage]]
            return base + self._pickups[row.outage][row.branch] * output * market.scale
        return base

    def flow(self, row):
        return Fraction(self.numerators[row], self.denominator)


class Prices:
    """The prices that the duals make: of buses, of units (what they are paid), and what a MW of a unit is worth."""

    def __init__(self, market, certificate):
        # bus price = energy - sum of (up - down) * a over the rows, where a, by how much a MW put in at the bus counts
        # for the row, is the branch's shift factor, after the loss of branch k + outage factor * shift factor of k
        weights = [Fraction(0)] * len(market.branches)
        own = {unit: Fraction(0) for unit in market.lost_units}
        for row, (up, down) in certificate.limit_duals.items():
            weights[row.branch] += up - down
            if row.kind == AFTER:
                factor = Fraction(market.outage_factors[row.outage][row.branch], market.scale)
                weights[market.outages[row.outage]] += (up - down) * factor
            elif row.kind == LOST:
                own[market.lost_units[row.outage]] += (up - down) * market.pickups[row.outage][row.branch]
        parts, common = over_common_denominator(weights)
        used = [branch for branch, part in enumerate(parts) if part]
        self.buses = []
        for bus in range(len(market.buses)):
            congestion = sum(parts[branch] * market.shift_factors[branch][bus] for branch in used)
            self.buses.append(certificate.energy - Fraction(congestion, common * market.scale))
        # a lost unit's own price is that of its bus less (up - down) * pickup over the rows after its loss
        self.units = [self.buses[bus] - own.get(unit, 0) for unit, bus in enumerate(market.unit_buses)]
        # a MW of a unit that offers reserve takes a MW of its room
        self.worth = [price - certificate.room_duals.get(unit, 0) for unit, price in enumerate(self.units)]

    def gain(self, block):
        """What accepting one MW more of a block gains."""
        return block.sign * (self.worth[block.unit] - block.price)


def reserve_gain(certificate, offer):
    return certificate.reserve_price - certificate.room_duals.get(offer.unit, 0) - offer.price


def dual_value(market, certificate, prices):
    """The value of the dual program: no feasible dispatch has more welfare. Of kind farkas costs and penalties do not
    count, and every feasible dispatch has 0 or more; so where it is below 0, none is feasible.

    It is the sum of: energy * the injections where nothing is accepted; - reserve price * need; room dual * room; of
    each limit up * (limit - flow) + down * (limit + flow), with its flow where nothing is accepted, and what a dual is
    above the penalty * the most excess; of each block and offer that gains its gain * its quantity.
    """
    counted = 1 if certificate.optimal else 0
    nothing = Flows(market, [Fraction(0)] * len(market.blocks), certificate.limit_duals)
    value = certificate.energy * sum(nothing.injections) - certificate.reserve_price * market.need
    value += sum(dual * market.rooms[unit] for unit, dual in certificate.room_duals.items())
    for row, (up, down) in certificate.limit_duals.items():
        limit, flow = market.limit(row), nothing.flow(row)
        penalty, excess = market.softness(row)
        value += up * (limit - flow) + down * (limit + flow)
        value += (max(0, up - counted * penalty) + max(0, down - counted * penalty)) * excess
    for block in market.blocks:
        gain = block.sign * (prices.worth[block.unit] - counted * block.price)
        value += max(0, gain) * block.quantity
    for offer in market.reserve_offers:
        gain = reserve_gain(certificate, offer) + (1 - counted) * offer.price
        value += max(0, gain) * offer.quantity
    return value


# The exact checks


class ExactAnswer:
    """The dispatch of a certificate of kind optimal. Making it checks it: it is feasible, and the duals support it."""

    def __init__(self, market, certificate):
        self.market, self.certificate = market, certificate
        self.prices = Prices(market, certificate)
        self._check_quantities()
        self.flows = Flows(market, certificate.accepted, market.rows)
        check(sum(self.flows.injections) == 0, "the dispatch does not balance")
        self._check_reserve()
        self.excess, self.at_limit = {}, 0
        for row, numerator in self.flows.numerators.items():
            self._check_row(row, numerator)
        self._check_support(market.blocks, certificate.accepted, self.prices.gain, "block")
        self._check_support(market.reserve_offers, certificate.reserve_accepted,
                            lambda offer: reserve_gain(certificate, offer), "offer of reserve")
        self.welfare = self._welfare()
        value = dual_value(market, certificate, self.prices)
        check(value == self.welfare,
              f"the welfare {float(self.welfare)} is not the value of the dual program {float(value)}")

    def _check_quantities(self):
        """Each quantity accepted is from 0 to what is offered."""
        market, certificate = self.market, self.certificate
        for number, (block, accepted) in enumerate(zip(market.blocks, certificate.accepted), 1):
            check(0 <= accepted <= block.quantity, f"block {number} is accepted below 0 or above its quantity")
        for number, (offer, accepted) in enumerate(zip(market.reserve_offers, certificate.reserve_accepted), 1):
            check(0 <= accepted <= offer.quantity, f"reserve {number} is accepted below 0 or above its quantity")

    def _check_reserve(self):
        """The reserve meets the need, and has a price only where it is just that. What a unit sells less what it buys,
        and its reserve, are within its room, which has a dual only where it is full."""
        market, certificate = self.market, self.certificate
        reserve = sum(certificate.reserve_accepted)
        check(reserve >= market.need, "the reserve does not meet the need")
        check(certificate.reserve_price == 0 or reserve == market.need, "reserve beyond the need has a price")
        used = {unit: self.flows.outputs[unit] - market.fixed_parts[unit] for unit in market.rooms}
        for offer, accepted in zip(market.reserve_offers, certificate.reserve_accepted):
            used[offer.unit] += accepted
        for unit, room in market.rooms.items():
            check(used[unit] <= room, f"the room of unit {market.units[unit]} is exceeded")
            dual = certificate.room_duals.get(unit, 0)
            check(dual == 0 or used[unit] == room, f"the room of unit {market.units[unit]} has a dual and is not full")

    def _check_row(self, row, numerator):
        """The size of a flow is at most the limit and its most excess. A dual supports the flow of its side where it is
        0 below the limit, at least the penalty above it, and more than the penalty only at the most excess."""
        market, denominator = self.market, self.flows.denominator
        limit, (penalty, most) = market.limit(row), market.softness(row)
        bound = limit.numerator * denominator  # compared with flows times the limit's denominator: all are integers
        size = abs(numerator) * limit.denominator
        if size > bound:
            excess = Fraction(abs(numerator), denominator) - limit
            check(excess <= most, f"limit {market.name(row)} is exceeded by more than may be")
            self.excess[row] = excess
        elif size == bound:
            self.at_limit += 1
        up, down = self.certificate.limit_duals.get(row, (0, 0))
        for dual, towards in ((up, numerator), (down, -numerator)):
            side = towards * limit.denominator
            supports = not (dual > 0 and side < bound or side > bound and dual < penalty)
            if supports and dual > penalty:
                supports = Fraction(towards, denominator) == limit + most
            check(supports, f"the dual of limit {market.name(row)} does not support its flow")

    @staticmethod
    def _check_support(offers, accepted, gain_of, what):
        """What gains is accepted whole, what loses is not accepted."""
        for number, (offer, quantity) in enumerate(zip(offers, accepted), 1):
            gain = gain_of(offer)
            check((gain <= 0 or quantity == offer.quantity) and (gain >= 0 or quantity == 0),
                  f"prices do not support what is accepted of {what} {number}")

    def _welfare(self):
        """The value of accepted bids less the cost of accepted offers, of reserve, and the penalties of excesses."""
        market, certificate = self.market, self.certificate
        welfare = -sum(block.sign * block.price * quantity
                       for block, quantity in zip(market.blocks, certificate.accepted))
        welfare -= sum(offer.price * quantity
                       for offer, quantity in zip(market.reserve_offers, certificate.reserve_accepted))
        return welfare - sum(market.softness(row).penalty * excess for row, excess in self.excess.items())

    def rent(self, row):
        """What a limit earns: up * (limit + excess - offset) + down * (limit + excess + offset), where the offset of a
        row is what fixed offsets alone put on its flow."""
        market = self.market
        offset = market.offsets[row.branch]
        if row.kind == AFTER:
            factor = Fraction(market.outage_factors[row.outage][row.branch], market.scale)
            offset += factor * market.offsets[market.outages[row.outage]]
        room = market.limit(row) + self.excess.get(row, 0)
        up, down = self.certificate.limit_duals[row]
        return up * (room - offset) + down * (room + offset)

    def summary(self):
        market, certificate = self.market, self.certificate
        bits = max(abs(number).bit_length() for value in self._numbers() for number in value.as_integer_ratio())
        return [f"the dispatch balances and is within {len(market.rows)} limit rows ({self.at_limit} at the limit, "
                f"{len(self.excess)} exceeded by {float(sum(self.excess.values())):.6f} MW in all, as they may be)",
                f"the duals of {len(certificate.limit_duals)} rows support the flows, the prices all "
                f"{len(market.blocks)} blocks and {len(market.reserve_offers)} offers of reserve",
                f"the welfare is the value of the dual program, as a fraction: {float(self.welfare):.9f}; parts of the "
                f"certificate's numbers have up to {bits} bits"]

    def _numbers(self):
        """The certificate's numbers in its own units."""
        certificate = self.certificate
        yield from (quantity * 10 ** MW_PLACES for quantity in certificate.accepted + certificate.reserve_accepted)
        duals = [dual for pair in certificate.limit_duals.values() for dual in pair]
        for price in [certificate.energy, certificate.reserve_price, *certificate.room_duals.values(), *duals]:
            yield price * certificate.unit


# The report


def read_number(text, places):
    """Such as 53.333333333:1/3, a third of the last of nine places more than 53.333333333; a sign stands for both."""
    decimal, _, rest = text.partition(":")
    return Fraction(decimal) + (-1 if decimal[0] == "-" else 1) * Fraction(rest or 0) / 10 ** places


class ReportCheck:
    """Compares each line of a report with what the certificate makes of it."""
    order = ()  # the kinds of lines, in the order of the report

    def __init__(self, market, certificate):
        self.market, self.certificate = market, certificate
        self.compared = {}
        self.row_names = {market.name(row): row for row in certificate.limit_duals}
        self.rows, self.rooms = [], []  # in the order of their lines
        self.line = ""

    def same(self, kind, text, places, value):
        self.compared[kind] = self.compared.get(kind, 0) + 1
        check(read_number(text, places) == value,
              f"report: {text} is not {kind}, {float(value)} by the certificate, in the line: {self.line}")

    def run(self, lines):
        last = 0
        for self.line in lines[1:]:
            words = self.line.split()
            try:
                kind = " ".join(words[:2])  # `reserve price` and `reserve dual` have lines of their own
                place = self.order.index(kind if kind in self.order else words[0])
                check(place >= last, f"report: a line in another order: {self.line}")
                last = place
                self.check_line(words)
            except (LookupError, ValueError, ZeroDivisionError):
                raise Failed(f"report: a line that cannot be read: {self.line}") from None
        self.check_whole()

    def check_line(self, words):
        raise NotImplementedError

    def check_whole(self):
        raise NotImplementedError

    def limit_row(self, words):
        """The row of a `limit` line, and its named values."""
        length = 3 if words[2] == BASE else 4
        name = " ".join(words[1:length])
        check(name in self.row_names, f"report: the certificate does not name limit {name}")
        self.rows.append(self.row_names[name])
        return self.rows[-1], dict(zip(words[length::2], words[length + 1::2]))

    def check_duals(self, row, values, places):
        up, down = self.certificate.limit_duals[row]
        self.same("up", values["up"], places, up)
        self.same("down", values["down"], places, down)

    def check_room(self, words, places):
        unit = self.market.unit_places[int(words[1])]
        self.rooms.append(unit)
        self.same("room dual", words[3], places, self.certificate.room_duals.get(unit, 0))

    def check_once(self, *kinds, reserve):
        """One line of each kind, and one of the kind `reserve` just where the market has reserve."""
        for kind in kinds:
            check(self.compared.get(kind) == 1, f"report: {kind} is missing, or there twice")
        check(self.compared.get(reserve, 0) == int(self.market.has_reserve),
              f"report: {reserve} is missing, there twice, or there without reserve")

    def check_rows(self):
        """Each limit row and room with a dual has one line, in the market's order."""
        duals = self.certificate.limit_duals
        check(len(set(self.rows)) == len(self.rows), "report: a limit has two lines")
        priced = [row for row in self.market.rows if any(duals.get(row, ()))]
        check([row for row in self.rows if any(duals[row])] == priced,
              "report: limits with a dual are missing, or in another order")
        check(self.rooms == sorted(unit for unit, dual in self.certificate.room_duals.items() if dual),
              "report: rooms with a dual are missing, there twice, or in another order")


class ClearedReport(ReportCheck):
    """The lines behind `cleared`."""
    order = ("welfare", "energy", "reserve price", "bus", "block", "limit", "room", "unit", "reserve", "load",
             "surplus")

    def __init__(self, market, certificate, answer):
        super().__init__(market, certificate)
        self.answer = answer
        self.lines = {"bus": [], "block": [], "unit": [], "load": []}  # places, in the order of their lines
        self.reserve_lines = 0
        self.block_places = {(market.units[block.unit], block.sign, block.number): place
                             for place, block in enumerate(market.blocks)}
        outputs, prices = answer.flows.outputs, answer.prices
        self.payments = [output * price for output, price in zip(outputs, prices.units)]
        self.charges = [demand * price for demand, price in zip(market.demands, prices.buses)]
        self.surplus = sum(self.charges) - sum(self.payments)  # what loads pay less what units are paid

    def check_line(self, words):
        kinds = {"welfare": self.check_welfare, "energy": self.check_energy, "reserve": self.check_reserve,
                 "bus": self.check_bus, "block": self.check_block, "limit": self.check_limit,
                 "room": lambda given: self.check_room(given, PRICE_PLACES), "unit": self.check_unit,
                 "load": self.check_load, "surplus": self.check_surplus}
        kinds[words[0]](words)

    def check_welfare(self, words):
        self.same("welfare", words[1], MONEY_PLACES, self.answer.welfare)

    def check_energy(self, words):
        self.same("energy", words[1], PRICE_PLACES, self.certificate.energy)

    def check_surplus(self, words):
        self.same("surplus", words[1], MONEY_PLACES, self.surplus)

    def check_reserve(self, words):
        if words[1] == "price":
            self.same("reserve price", words[2], PRICE_PLACES, self.certificate.reserve_price)
            self.same("need", words[4], MW_PLACES, self.market.need)
            return
        place = self.reserve_lines
        self.reserve_lines += 1
        check(int(words[1]) == self.market.units[self.market.reserve_offers[place].unit],
              f"report: reserve in another order: {self.line}")
        accepted = self.certificate.reserve_accepted[place]
        self.same("reserve mw", words[3], MW_PLACES, accepted)
        self.same("reserve paid", words[5], MONEY_PLACES, accepted * self.certificate.reserve_price)

    def check_bus(self, words):
        bus = self.market.bus_places[int(words[1])]
        self.lines["bus"].append(bus)
        price = self.answer.prices.buses[bus]
        self.same("bus price", words[3], PRICE_PLACES, price)
        self.same("bus congestion", words[5], PRICE_PLACES, price - self.certificate.energy)

    def check_block(self, words):
        place = self.block_places[int(words[1]), SIDES[words[2]], int(words[3])]
        self.lines["block"].append(place)
        self.same("block mw", words[5], MW_PLACES, self.certificate.accepted[place])

    def check_limit(self, words):
        row, values = self.limit_row(words)
        self.same("limit flow", values["flow"], MW_PLACES, self.answer.flows.flow(row))
        check(("over" in values) == (row in self.answer.excess), f"report: `over` of a flow: {self.line}")
        if "over" in values:
            self.same("limit over", values["over"], MW_PLACES, self.answer.excess[row])
        self.check_duals(row, values, PRICE_PLACES)
        self.same("rent", values["rent"], MONEY_PLACES, self.answer.rent(row))

    def check_unit(self, words):
        unit = self.market.unit_places[int(words[1])]
        self.lines["unit"].append(unit)
        self.same("unit mw", words[3], MW_PLACES, self.answer.flows.outputs[unit])
        self.same("unit paid", words[5], MONEY_PLACES, self.payments[unit])
        check(("own" in words) == (unit in self.market.shares), f"report: own price of a unit: {self.line}")
        if "own" in words:
            self.same("own price", words[7], PRICE_PLACES, self.answer.prices.units[unit])

    def check_load(self, words):
        bus = self.market.bus_places[int(words[1])]
        self.lines["load"].append(bus)
        self.same("load mw", words[3], MW_PLACES, self.market.demands[bus])
        self.same("load pays", words[5], MONEY_PLACES, self.charges[bus])

    def check_whole(self):
        """Each bus, block, unit, offer of reserve and load has one line, in order, and so has each limit that is
        exceeded; the surplus is the sum of the rents."""
        market = self.market
        self.check_once("welfare", "energy", "surplus", reserve="reserve price")
        for kind, of in (("bus", market.buses), ("block", market.blocks), ("unit", market.units),
                         ("load", market.buses)):
            check(self.lines[kind] == list(range(len(of))),
                  f"report: lines of kind {kind} are missing, there twice, or in another order")
        check(self.reserve_lines == len(market.reserve_offers), "report: lines of reserve are missing")
        self.check_rows()
        check(set(self.answer.excess) <= set(self.rows), "report: a limit that is exceeded has no line")
        rents = sum(self.answer.rent(row) for row in self.rows)
        check(self.surplus == rents, "the surplus is not the sum of the rents")


class InfeasibleReport(ReportCheck):
    """The lines behind `infeasible`: the bound, in MW, and the duals, plain numbers."""
    order = ("bound", "energy", "reserve dual", "limit", "room")

    def __init__(self, market, certificate, bound):
        super().__init__(market, certificate)
        self.bound = bound

    def check_line(self, words):
        if words[0] == "bound":
            self.same("bound", words[1], MW_PLACES, self.bound)
        elif words[0] == "energy":
            self.same("energy", words[1], 0, self.certificate.energy)
        elif words[:2] == ["reserve", "dual"]:
            self.same("reserve dual", words[2], 0, self.certificate.reserve_price)
        elif words[0] == "limit":
            self.check_duals(*self.limit_row(words), 0)
        elif words[0] == "room":
            self.check_room(words, 0)
        else:
            raise ValueError

    def check_whole(self):
        self.check_once("bound", "energy", reserve="reserve dual")
        self.check_rows()


def read_certificate(market, path, cleared):
    try:
        with open(path, encoding="utf-8") as file:
            certificate = Certificate(market, json.load(file))
    except (OSError, LookupError, ValueError, TypeError, AttributeError, ZeroDivisionError) as fault:
        raise Failed(f"the certificate cannot be read: {type(fault).__name__} {fault}") from None
    check(certificate.optimal == cleared, "the kind of the certificate is not that of the report")
    return certificate


def check_exactly(market, lines, path, say):
    """Makes all exact checks; returns the certificate."""
    cleared = lines[0] == "cleared"
    certificate = read_certificate(market, path, cleared)
    if cleared:
        answer = ExactAnswer(market, certificate)
        for text in answer.summary():
            say(f"exact: {text}")
        report = ClearedReport(market, certificate, answer)
    else:
        bound = dual_value(market, certificate, Prices(market, certificate))
        check(bound < 0, f"the bound {float(bound)} is not below 0, so the duals do not show that nothing is feasible")
        say(f"exact: nothing is feasible, by the duals of {len(certificate.limit_duals)} limit rows: bound "
            f"{float(bound):.9g}")
        report = InfeasibleReport(market, certificate, bound)
    report.run(lines)
    say("exact: the report is what the certificate makes of it: " +
        ", ".join(f"{count} {kind}" for kind, count in report.compared.items()) +
        (f"; surplus = sum of the rents = {float(report.surplus):.6f}" if cleared else ""))
    return certificate


# The linear program, in floating point


class RowSide(NamedTuple):
    """A limit row on the flow from the branch's first bus to its second (sign 1), or the other way (-1)."""
    row: Row
    sign: int


class Constraints:
    """Linear rows: entries by row, column and value, and the right-hand sides."""

    def __init__(self):
        self.rows, self.columns, self.values, self.bounds = [], [], [], []

    def add(self, columns, values, bound):
        self.rows += [len(self.bounds)] * len(columns)
        self.columns += columns
        self.values += values
        self.bounds.append(bound)

    def matrix(self, width):
        if not self.bounds:
            return None
        shape = (len(self.bounds), width)
        return coo_matrix((np.array(self.values, float), (self.rows, self.columns)), shape=shape).tocsr()


class LinearProgram:
    def __init__(self):
        self.costs, self.ranges = [], []
        self.at_most, self.equal = Constraints(), Constraints()

    def add_column(self, cost, low, high):
        self.costs.append(float(cost))
        self.ranges.append((low, high))
        return len(self.costs) - 1

    def solve(self):
        width = len(self.costs)
        return linprog(
            self.costs, A_ub=self.at_most.matrix(width), b_ub=self.at_most.bounds or None,
            A_eq=self.equal.matrix(width), b_eq=self.equal.bounds, bounds=np.array(self.ranges), method="highs",
            options={"primal_feasibility_tolerance": 1e-9, "dual_feasibility_tolerance": 1e-9})


@dataclass
class Solution:
    feasible: bool
    rounds: int
    row_sides: int
    seconds: float
    welfare: float = 0.0
    accepted: object = None
    exceeded: int = 0    # limit rows
    excess: float = 0.0  # MW in all
    at_limit: int = 0    # limit rows
    priced: int = 0      # row sides with a dual
    between: int = 0     # of these, hard or with a dual below the penalty

    def summary(self):
        size = f"{self.rounds} rounds, {self.row_sides} row sides, {self.seconds:.1f} s"
        if not self.feasible:
            return f"nothing is feasible; {size}"
        return (f"welfare {self.welfare:.9f}; {self.exceeded} limit rows exceeded by {self.excess:.3f} MW in all, "
                f"{self.at_limit} at the limit, {self.priced} row sides with a dual, of these {self.between} hard or "
                f"below the penalty; {size}")


def floats(values):
    return np.array([np.inf if value is None else float(value) for value in values], float)


class WelfareProgram:
    """The market as a linear program: of greatest welfare, so of least cost."""

    def __init__(self, market):
        self.market = market
        branches, buses = len(market.branches), len(market.buses)
        self.unit_of = np.array([block.unit for block in market.blocks], int)
        self.signs = floats(block.sign for block in market.blocks)
        self.fixed = floats(market.fixed_parts)
        unit_buses = np.array(market.unit_buses, int)
        shift = np.array(market.shift_factors, float).reshape(branches, buses) / market.scale
        outage_factors = np.array(market.outage_factors, float).reshape(len(market.outages), branches)
        self.outage_factors = outage_factors / market.scale
        pickups = [floats(by_branch) for by_branch in market.pickups]
        self.pickups = np.array(pickups, float).reshape(len(market.lost_units), branches)
        injections = -floats(market.demands)  # where nothing is accepted
        np.add.at(injections, unit_buses, self.fixed)
        self.to_sell = -injections.sum()
        self.flow_of_block = shift[:, unit_buses[self.unit_of]] * self.signs  # for each MW, by branch and block
        self.flow_of_nothing = floats(market.offsets) + shift @ injections
        self.base_limits, self.post_limits = floats(market.base_limits), floats(market.post_limits)

    def flows(self, accepted):
        """Of each kind of limit row the flows, by outage and branch, and the limits."""
        outputs = self.fixed.copy()
        np.add.at(outputs, self.unit_of, self.signs * accepted)
        base = self.flow_of_nothing + self.flow_of_block @ accepted
        after = base + self.outage_factors * base[self.market.outages][:, None]
        for outage, lost in enumerate(self.market.outages):
            after[outage, lost] = 0  # the lost branch has no limit row
        lost = base + self.pickups * outputs[self.market.lost_units][:, None]
        return ((BASE, base[None, :], self.base_limits), (AFTER, after, self.post_limits),
                (LOST, lost, self.post_limits))

    def build(self, sides):
        """The program with these limits. Columns: blocks, offers of reserve, the base flows that limits ask for, and
        excesses; the first rows of `at_most` are the limits."""
        market, program = self.market, LinearProgram()
        for block in market.blocks:
            program.add_column(block.sign * block.price, 0, float(block.quantity))
        for offer in market.reserve_offers:
            program.add_column(offer.price, 0, float(offer.quantity))
        # the balance: what is sold less what is bought is what fixed parts leave of the demand
        program.equal.add(list(range(len(market.blocks))), list(self.signs), self.to_sell)
        needed = {side.row.branch for side in sides}
        needed |= {market.outages[side.row.outage] for side in sides if side.row.kind == AFTER}
        columns = {branch: program.add_column(0, -np.inf, np.inf) for branch in sorted(needed)}
        for branch, column in columns.items():
            moving = np.nonzero(self.flow_of_block[branch])[0]
            program.equal.add([*moving.tolist(), column], [*self.flow_of_block[branch][moving].tolist(), -1.0],
                              -self.flow_of_nothing[branch])
        for side in sides:
            self._add_limit(program, columns, side)
        self._add_reserve(program)
        return program

    def _add_limit(self, program, columns, side):
        """sign * flow of the row - excess <= limit, where the excess bears the penalty."""
        market, (row, sign) = self.market, side
        bound, softness = float(market.limit(row)), market.softness(row)
        entries = {columns[row.branch]: sign}
        if row.kind == AFTER:
            lost = columns[market.outages[row.outage]]
            entries[lost] = entries.get(lost, 0) + sign * self.outage_factors[row.outage, row.branch]
        elif row.kind == LOST:
            unit, pickup = market.lost_units[row.outage], self.pickups[row.outage, row.branch]
            for block in np.nonzero(self.unit_of == unit)[0].tolist():
                entries[block] = sign * pickup * self.signs[block]
            bound -= sign * pickup * self.fixed[unit]
        if softness.penalty > 0 and softness.excess > 0:
            entries[program.add_column(softness.penalty, 0, float(softness.excess))] = -1.0
        program.at_most.add(list(entries), list(entries.values()), bound)

    def _add_reserve(self, program):
        """The reserve is at least the need; what a unit sells less what it buys, and its reserve, at most its room."""
        market, blocks = self.market, len(self.market.blocks)
        offers = len(market.reserve_offers)
        if offers or market.need:
            program.at_most.add(list(range(blocks, blocks + offers)), [-1.0] * offers, -float(market.need))
        for unit, room in market.rooms.items():
            own = np.nonzero(self.unit_of == unit)[0].tolist()
            kept = [blocks + place for place, offer in enumerate(market.reserve_offers) if offer.unit == unit]
            program.at_most.add(own + kept, [self.signs[block] for block in own] + [1.0] * len(kept), float(room))

    def passed_sides(self, accepted, known):
        """Row sides whose limit is passed and which the program does not have yet."""
        for kind, flows, limits in self.flows(accepted):
            for sign in (1, -1):
                for outage, branch in np.argwhere(sign * flows - limits > PASSED).tolist():
                    side = RowSide(Row(branch, kind, outage), sign)
                    if side not in known:
                        yield side

    def solve(self, all_rows):
        """Raises Failed where HiGHS has neither an optimum nor a proof that nothing is feasible."""
        start, rounds = time.time(), 0
        new = [RowSide(row, sign) for row in self.market.rows for sign in (1, -1)] if all_rows else []
        sides, known = [], set()
        while rounds == 0 or new:
            sides += new
            known.update(new)
            rounds += 1
            result = self.build(sides).solve()
            if result.status == 2:
                return Solution(False, rounds, len(sides), time.time() - start)
            check(result.status == 0, f"HiGHS has no answer: {result.message}")
            accepted = result.x[:len(self.market.blocks)]
            new = list(self.passed_sides(accepted, known))
        solution = Solution(True, rounds, len(sides), time.time() - start, -result.fun, accepted)
        self._count(solution, sides, result)
        return solution

    def _count(self, solution, sides, result):
        for _, flows, limits in self.flows(solution.accepted):
            beyond = np.abs(flows) - limits
            solution.exceeded += int((beyond > MW_TOLERANCE).sum())
            solution.at_limit += int((np.abs(beyond) <= MW_TOLERANCE).sum())
            solution.excess += float(beyond[beyond > 0].sum())
        for side, marginal in zip(sides, result.ineqlin.marginals):
            dual, penalty = -marginal, float(self.market.softness(side.row).penalty)
            solution.priced += int(dual > DUAL_TOLERANCE)
            solution.between += int(dual > DUAL_TOLERANCE and not 0 < penalty - DUAL_TOLERANCE < dual)


def check_by_program(market, lines, all_rows, certificate, say):
    """Compares the report with HiGHS; the certificate, where there is one, gives the dispatch."""
    cleared = lines[0] == "cleared"
    solution = WelfareProgram(market).solve(all_rows)
    say(f"lp: HiGHS: {solution.summary()}")
    check(solution.feasible == cleared, "the report and HiGHS differ in whether a dispatch is feasible")
    if not cleared:
        say("lp: agrees")
        return
    try:
        printed = [read_number(line.split()[1], MONEY_PLACES) for line in lines if line.startswith("welfare ")]
        welfare = float(printed[0])
    except (LookupError, ValueError, ZeroDivisionError):
        raise Failed("the report has no welfare that can be read") from None
    difference = welfare - solution.welfare
    relative = abs(difference) / max(1, abs(solution.welfare))
    check(relative <= WELFARE_TOLERANCE, f"the welfare of the report, {welfare}, differs by {difference:.3e}")
    say(f"lp: agrees: the welfare of the report differs by {difference:.3e}, relative {relative:.1e}")
    if certificate is not None:
        pairs = zip(certificate.accepted, solution.accepted)
        most = max((abs(float(ours) - theirs) for ours, theirs in pairs), default=0)
        say(f"lp: the dispatch differs by {most:.3e} MW at most (a hint alone: several may be best)")


# The words, and the whole


class Parser(argparse.ArgumentParser):
    """Ends with status 3 where words are refused, since 2 stands for a report without an answer."""

    def error(self, message):
        self.print_usage(sys.stderr)
        self.exit(3, f"check_answer.py: {message}\n")


def read_arguments(words):
    parser = Parser(usage='check_answer.py (DIR | --words "--case F ..") REPORT CERTIFICATE [options]',
                    description=__doc__, formatter_class=argparse.RawDescriptionHelpFormatter, allow_abbrev=False)
    parser.add_argument("names", nargs="*", help=argparse.SUPPRESS)
    parser.add_argument("--words", help=argparse.SUPPRESS)
    for name in ("--no-lp", "--no-exact", "--all-rows"):
        parser.add_argument(name, action="store_true", help=argparse.SUPPRESS)
    given = parser.parse_intermixed_args(words)
    names = list(given.names)
    given.folder = names.pop(0) if given.words is None and names else ""
    if len(names) not in ((1, 2) if given.no_exact else (2,)) or (given.words is None and not given.folder):
        parser.error("a folder or --words, a report and a certificate are wanted")
    given.report, given.certificate = names[0], names[1] if len(names) > 1 else None
    if given.no_lp and given.no_exact:
        parser.error("--no-lp and --no-exact leave nothing to check")
    return given


def read_clear_options(given):
    """The options of `clear` by name: of --words as they are, of DIR/clear.sh with files relative to DIR."""
    text = given.words
    if text is None:
        with open(os.path.join(given.folder, "clear.sh"), encoding="utf-8") as file:
            text = file.read()
    words = shlex.split(text.replace("\\\n", " "), comments=given.words is None)
    words = iter(words if given.words is not None else words[words.index("clear") + 1:])
    options = {}
    for word in words:
        if word.startswith("--"):
            name, equals, value = word[2:].partition("=")
            value = value if equals else next(words, "")
            options[name] = os.path.join(given.folder, value) if name in FILE_OPTIONS else value
    return options


def run(given):
    """Makes the checks; returns the status."""
    with open(given.report, encoding="utf-8") as file:
        lines = file.read().splitlines()
    say(f"report: {lines[0] if lines else 'empty'}, {len(lines)} lines")
    if not lines or lines[0] not in ("cleared", "infeasible"):
        say("nothing to compare: the report has no answer")
        return 2
    start = time.time()
    try:
        market = Market(read_clear_options(given))
    except (LookupError, ValueError, ZeroDivisionError) as fault:
        raise Unreadable(f"a file of the market cannot be read: {type(fault).__name__} {fault}") from None
    say(f"{market.summary()} ({time.time() - start:.1f} s)")
    good, certificate = True, None
    if not given.no_exact:
        start = time.time()
        try:
            certificate = check_exactly(market, lines, given.certificate, say)
        except Failed as fault:
            good = False
            say(f"exact: FAILED: {fault}")
        say(f"exact: {time.time() - start:.1f} s")
    if not given.no_lp:
        try:
            check_by_program(market, lines, given.all_rows, certificate, say)
        except Failed as fault:
            good = False
            say(f"lp: FAILED: {fault}")
    say("all agrees" if good else "NOT ALL AGREES")
    return 0 if good else 1


def say(text):
    print(text, flush=True)


def main():
    given = read_arguments(sys.argv[1:])
    if np is None and not given.no_lp:
        say("check_answer.py: needs numpy and scipy (Debian: python3-numpy, python3-scipy), or else --no-lp")
        return 3
    try:
        return run(given)
    except (OSError, UnicodeDecodeError, Unreadable) as fault:
        say(f"check_answer.py: {fault}")
        return 3


if __name__ == "__main__":
    sys.exit(main())
