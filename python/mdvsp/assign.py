"""Blocks to groups at the least cost together, within the fleets: each block costs something in each group, or can't be
run by it."""

from __future__ import annotations

from typing import Dict, List, Optional, Sequence, Tuple

Costs = Sequence[Sequence[Optional[int]]]
# From where a shortest way comes to a group: the group before, and the block that moves from there.
Step = Tuple[int, int]


def assign(costs: Costs, fleets: Sequence[int]) -> Optional[List[int]]:
    """Returns the group of each block so that all together cost least, or None where there is no such choice.

    Blocks are added one by one. Each goes to a group by the cheapest way: into a group with a vehicle left, or into one
    from which another block moves on. So the choice costs least at each step (successive shortest paths).
    """
    groups: List[int] = []
    for block in range(len(costs)):
        way = cheapest_way(costs, fleets, groups, block)
        if way is None:
            return None
        groups.append(-1)
        for moved, group in way:
            groups[moved] = group
    return groups


def cheapest_way(costs: Costs, fleets: Sequence[int], groups: List[int], block: int) -> Optional[List[Step]]:
    """Returns which blocks go where, so that one more block finds room at the least further cost."""
    count = len(fleets)
    room = [fleets[group] - groups.count(group) for group in range(count)]
    moves = cheapest_moves(costs, groups, count)
    length: List[Optional[int]] = list(costs[block])
    before: List[Optional[Step]] = [None] * count
    for _ in range(count):
        relax(length, before, moves)
    ends = [group for group in range(count) if room[group] > 0 and length[group] is not None]
    if not ends:
        return None
    group = min(ends, key=lambda it: length[it])
    way: List[Step] = []
    while before[group] is not None:
        origin, moved = before[group]
        way.append((moved, group))
        group = origin
    return [*way, (block, group)]


def cheapest_moves(costs: Costs, groups: Sequence[int], count: int) -> Dict[Tuple[int, int], Tuple[int, int]]:
    """Returns for each two groups what it costs more to move a block from the one to the other, and which block."""
    moves: Dict[Tuple[int, int], Tuple[int, int]] = {}
    for block, origin in enumerate(groups):
        for target in range(count):
            cost = costs[block][target]
            if target == origin or cost is None:
                continue
            more = cost - costs[block][origin]
            if (origin, target) not in moves or more < moves[origin, target][0]:
                moves[origin, target] = (more, block)
    return moves


def relax(length: List[Optional[int]], before: List[Optional[Step]],
          moves: Dict[Tuple[int, int], Tuple[int, int]]) -> None:
    """Shortens the ways to groups by one move each (Bellman and Ford)."""
    for (origin, target), (more, block) in moves.items():
        if length[origin] is None:
            continue
        if length[target] is None or length[origin] + more < length[target]:
            length[target], before[target] = length[origin] + more, (origin, block)
