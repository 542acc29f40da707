"""Parts that are split and made whole as looks find them: by their rules, and never without a pause."""
from __future__ import annotations

import random

from common.compared import Compared
from common.window_library import Library, values_of
from harness import Tally

STAY, SPLIT, MAKE_WHOLE = range(3)
LOOKS, PAGES = 20_000, 512


def run(tally: Tally, library: Library) -> None:
    """Looks at parts, where what is to be done is done or not."""
    seen, chance = Compared(tally, "parts as chance has it"), random.Random(1)
    part, since, changes = library.make("part", whole=True), 255, {SPLIT: 0, MAKE_WHOLE: 0}
    config = library.make("part_config", huge_from=16, alone_part=4, alone=2, pause=3)
    for _ in range(LOOKS):
        if chance.random() < 0.001:
            config = library.make("part_config", huge_from=chance.choice([0, 1, 16, 600]), alone_part=chance.choice([0, 1, 4, 16]),
                                  alone=chance.choice([0, 2, 255]), pause=chance.choice([0, 3]))
        bits = [chance.random() < odds for odds in (0.5, 0.9, 0.9, 0.75, 0.25, 0.5, 0.5)]
        look = library.structs["part_look"](chance.choice([508, 509, 510, 511, 512, 400]), chance.choice([0, 1, 15, 16, 20]), *bits)
        due, pause, alone = STAY, part.pause, part.alone
        share = min(config.huge_from, PAGES)
        is_alone = config.alone_part < config.huge_from and (PAGES - look.own) * config.alone_part < share
        if pause:
            pause -= 1
        elif part.whole:
            least = config.huge_from if look.is_huge else 1
            if look.is_loose and look.may_lend and look.has_mappings and 0 < look.shareable >= least:
                due = SPLIT
        else:
            alone = min(alone + 1, 255) if is_alone else 0
            if look.may_be_huge and look.may_lend and look.is_movable and not look.may_pin and alone >= config.alone:
                due = MAKE_WHOLE
        if due != STAY:
            pause, alone = config.pause, 0
        whole, rests = part.whole, (part.rest, part.left, part.is_still, part.is_huge, part.own)
        found = library.call("next_of_part", part, config, look)
        seen.equal("next_of_part", found, due)
        seen.equal("a part", values_of(part), (whole, pause, alone, *rests))
        seen.holds("a pause", found == STAY or since >= config.pause or config.pause == 0)
        if found == STAY:
            since = min(since + 1, 255)
            continue
        since, changes[found] = 0, changes[found] + 1
        if chance.random() < 0.5:
            part.whole = found == MAKE_WHOLE
    seen.holds(f"splits, and parts that were made whole: {changes}", min(changes.values()) > 500)
    seen.close()
