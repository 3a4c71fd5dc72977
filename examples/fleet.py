"""The twelve ships of the examples, one of them under two rules, in metres: each zone by its name and forward end, from aft forward.

The lowest opening stands as low as the load lines let it: an air pipe 0.76 m above the deck, a ventilator 0.9 m. Of the cruise ship it is the bulkhead deck
itself, by which people leave."""

from ship import People, Ship, Zone

CARGO, CONTAINERS, PENS, VEHICLES, MACHINERY = 0.7, 0.8, 0.85, 0.9, 0.85  # permeabilities; cabins, peaks and voids have 0.95


def alongside(width):
    """The hold of the coaster behind side tanks of that width."""
    return {"tanks": (width,), "hold": "hold", "permeability": CARGO}


COASTER = Ship(
    name="coaster", what="single-hold coaster, 84.6 m", verdict="meets",
    shows="one hold behind three pairs of side tanks: damage that stays within a tank is survived, damage into the hold is not",
    length=84.6, breadth=13.6, depth=7.6, deepest=5.4, light=3.1, block=0.78, gm=(0.9, 1.1, 1.4), vents=8.36,
    zones=(
        Zone("aft peak", 5.4, decks=(6.2,)),
        Zone("engine room", 18.0, decks=(6.2,), permeability=MACHINERY),
        Zone("side tanks 3", 37.2, **alongside(1.8)),
        Zone("side tanks 2", 56.4, **alongside(1.8)),
        Zone("side tanks 1", 74.4, **alongside(1.8)),
        Zone("bow thruster", 79.2),
        Zone("fore peak", 84.6),
    ),
)

DOUBLE_SIDED = {"tanks": (1.6, 5.2), "decks": (11.8,), "permeability": CARGO}

BULK_CARRIER = Ship(
    name="bulk-carrier", what="bulk carrier with double sides, 179.8 m", verdict="meets",
    shows="side tanks in two layers, topside tanks as a height of their own",
    length=179.8, breadth=30.4, depth=14.8, deepest=10.1, light=6.4, block=0.82, gm=(1.3, 1.8, 2.8), vents=15.56,
    zones=(
        Zone("aft peak", 9.6, decks=(12.0,)),
        Zone("engine room", 32.8, tanks=(3.2,), decks=(12.0,), permeability=MACHINERY),
        Zone("hold 5", 59.2, **DOUBLE_SIDED),
        Zone("hold 4", 86.4, **DOUBLE_SIDED),
        Zone("hold 3", 113.6, **DOUBLE_SIDED),
        Zone("hold 2", 140.8, **DOUBLE_SIDED),
        Zone("hold 1", 168.0, **DOUBLE_SIDED),
        Zone("fore peak", 179.8, decks=(13.4,)),
    ),
)

CELLS = {"tanks": (2.4,), "decks": (14.4,), "permeability": CONTAINERS}
ENGINES = {"tanks": (2.8,), "decks": (14.4,), "permeability": MACHINERY}

CONTAINER_SHIP = Ship(
    name="container-ship", what="container ship of 20 zones, 197.6 m", verdict="meets",
    shows="as many zones as a file may have; groups of up to five zones, the longer ones left out",
    length=197.6, breadth=32.2, depth=17.6, deepest=11.2, light=7.7, block=0.66, gm=(0.6, 0.8, 1.2), vents=18.36,
    adjacent=5,
    zones=(
        Zone("aft peak", 6.4),
        Zone("steering gear", 14.4),
        Zone("hold 9 aft", 21.6, **CELLS),
        Zone("hold 9 forward", 28.8, **CELLS),
        Zone("engine room aft", 40.0, **ENGINES),
        Zone("engine room forward", 51.2, **ENGINES),
        Zone("hold 8 aft", 60.8, **CELLS),
        Zone("hold 8 forward", 70.4, **CELLS),
        Zone("hold 7 aft", 80.0, **CELLS),
        Zone("hold 7 forward", 89.6, **CELLS),
        Zone("hold 6 aft", 99.2, **CELLS),
        Zone("hold 6 forward", 108.8, **CELLS),
        Zone("hold 5 aft", 118.4, **CELLS),
        Zone("hold 5 forward", 128.0, **CELLS),
        Zone("hold 4 aft", 137.6, **CELLS),
        Zone("hold 4 forward", 147.2, **CELLS),
        Zone("hold 3", 158.4, **CELLS),
        Zone("hold 2", 171.2, tanks=(3.2,), decks=(14.4,), permeability=CONTAINERS),
        Zone("hold 1", 184.0, decks=(14.4,), permeability=CONTAINERS),
        Zone("fore peak", 197.6),
    ),
)

TWEEN_DECKED = {"tanks": (2.6,), "decks": (9.2,), "permeability": CARGO}

HEAVY_LIFT = Ship(
    name="heavy-lift", what="heavy-lift ship, 132.4 m", verdict="meets",
    shows="a tween deck and side tanks: A and all three partial indices are well above their marks",
    length=132.4, breadth=22.8, depth=11.6, deepest=7.6, light=5.1, block=0.72, gm=(0.8, 1.0, 1.5), vents=12.36,
    zones=(
        Zone("aft peak", 7.2, decks=(9.2,)),
        Zone("engine room", 26.4, decks=(9.2,), permeability=MACHINERY),
        Zone("hold 3", 45.6, **TWEEN_DECKED),
        Zone("hold 2 aft", 64.8, **TWEEN_DECKED),
        Zone("hold 2 forward", 84.0, **TWEEN_DECKED),
        Zone("hold 1 aft", 101.6, **TWEEN_DECKED),
        Zone("hold 1 forward", 116.8, **TWEEN_DECKED),
        Zone("bow thruster", 124.0, decks=(9.2,)),
        Zone("fore peak", 132.4, decks=(9.2,)),
    ),
)

TIMBER_CARRIER = Ship(
    name="timber-carrier", what="timber carrier with little freeboard, 104 m", verdict="fails",
    shows="A reaches R, and the ship fails all the same: at the deepest draught As is below R/2",
    length=104.0, breadth=17.2, depth=8.6, deepest=6.9, light=3.2, block=0.75, gm=(0.6, 1.6, 2.6), vents=9.36,
    zones=(
        Zone("aft peak", 6.0),
        Zone("engine room", 22.4, permeability=MACHINERY),
        Zone("hold 3", 44.8, tanks=(1.4,), permeability=CARGO),
        Zone("hold 2", 67.2, tanks=(1.4,), permeability=CARGO),
        Zone("hold 1", 89.6, tanks=(1.4,), permeability=CARGO),
        Zone("chain locker", 97.6),
        Zone("fore peak", 104.0),
    ),
)

REEFER = Ship(
    name="reefer", what="refrigerated cargo ship, 141.6 m", verdict="unsettled",
    shows="GM drawn down a millimetre at a time until R lies between the ends of A: one more meets, one less fails",
    length=141.6, breadth=21.6, depth=11.8, deepest=8.4, light=5.9, block=0.62, gm=(0.436, 0.536, 0.836), vents=12.7,
    zones=(
        Zone("aft peak", 8.0, decks=(10.2,)),
        Zone("hold 4", 28.0, decks=(10.2,), permeability=CARGO),
        Zone("engine room", 48.8, permeability=MACHINERY),
        Zone("hold 3", 70.4, decks=(7.6, 10.2), permeability=CARGO),
        Zone("hold 2", 92.0, decks=(7.6, 10.2), permeability=CARGO),
        Zone("hold 1", 112.8, decks=(7.6, 10.2), permeability=CARGO),
        Zone("deep tank", 124.8, decks=(10.2,)),
        Zone("fore peak", 141.6, decks=(10.2,)),
    ),
)

FREEBOARD_DECK = 8.0
PENNED = {"tanks": (1.8,), "decks": (FREEBOARD_DECK,), "permeability": PENS}

LIVESTOCK_CARRIER = Ship(
    name="livestock-carrier", what="livestock carrier with a shelter deck, 118.8 m", verdict="fails", raised=0.5,
    shows="the ventilators of its pens open in the side, 0.9 m above the freeboard deck: there it fails, half a metre higher it meets",
    length=118.8, breadth=19.6, depth=10.8, deepest=7.2, light=5.2, block=0.66, gm=(1.7, 1.9, 2.4), vents=8.9,
    zones=(
        Zone("aft peak", 7.2, decks=(FREEBOARD_DECK,)),
        Zone("engine room", 27.6, decks=(FREEBOARD_DECK,), permeability=MACHINERY),
        Zone("hold 3", 51.6, **PENNED),
        Zone("hold 2", 75.6, **PENNED),
        Zone("hold 1", 99.6, **PENNED),
        Zone("bow thruster", 108.0, decks=(FREEBOARD_DECK,)),
        Zone("fore peak", 118.8, decks=(FREEBOARD_DECK,)),
    ),
)

STOWED = {"tanks": (2.0,), "decks": (9.2,), "permeability": CARGO, "bottom": 2.0}

PAPER_CARRIER = Ship(
    name="paper-carrier", what="paper carrier with high sides and little GM, 126.8 m", verdict="fails", alone="meets",
    shows="two sets of results a row, the second with the inner bottom left whole: by either set alone it meets, by the worse of the two it fails",
    length=126.8, breadth=20.4, depth=13.6, deepest=7.6, light=5.6, block=0.7, gm=(0.46, 0.56, 0.76), vents=14.36,
    zones=(
        Zone("aft peak", 7.2, decks=(9.2,)),
        Zone("engine room", 25.6, decks=(9.2,), permeability=MACHINERY, bottom=1.6),
        Zone("hold 4", 44.8, **STOWED),
        Zone("hold 3", 65.6, **STOWED),
        Zone("hold 2", 86.4, **STOWED),
        Zone("hold 1", 105.6, **STOWED),
        Zone("bow thruster", 115.2, decks=(9.2,)),
        Zone("fore peak", 126.8, decks=(9.2,)),
    ),
)

BULKHEAD_DECK = 9.0
UNDER_THE_GARAGE = {"decks": (BULKHEAD_DECK,), "garage": BULKHEAD_DECK}
LOWER_HOLD = {**UNDER_THE_GARAGE, "tanks": (5.04,), "hold": "lower hold", "vehicles": True, "permeability": VEHICLES}

FERRY = Ship(
    name="ferry", what="ro-ro passenger ferry, 158.4 m", verdict="fails", heeled="boats", turned=("heeling moments", "ro-ro marks"),
    shows="A reaches R, and the ship fails all the same: at the deepest draught As is below 0.9 R, for its ro-ro space and for its boats",
    length=158.4, breadth=25.2, depth=13.8, deepest=6.0, light=5.2, block=0.6, gm=(2.6, 3.4, 3.8), vents=14.56,
    people=People(in_lifeboats=960, in_excess=120, passengers=1000, side=26.0, boats=4, boat=16.0, davit=15.4),
    zones=(
        Zone("steering gear", 10.8, **UNDER_THE_GARAGE),
        Zone("stores", 21.6, **UNDER_THE_GARAGE),
        Zone("auxiliary machinery", 33.6, permeability=MACHINERY, **UNDER_THE_GARAGE),
        Zone("engine room aft", 46.8, permeability=MACHINERY, **UNDER_THE_GARAGE),
        Zone("engine room forward", 60.0, permeability=MACHINERY, **UNDER_THE_GARAGE),
        Zone("wing tanks 3", 73.2, **LOWER_HOLD),
        Zone("wing tanks 2", 86.4, **LOWER_HOLD),
        Zone("wing tanks 1", 99.6, **LOWER_HOLD),
        Zone("void 2", 112.8, **UNDER_THE_GARAGE),
        Zone("void 1", 124.8, **UNDER_THE_GARAGE),
        Zone("bow thruster", 136.8, **UNDER_THE_GARAGE),
        Zone("fore peak", 158.4, decks=(BULKHEAD_DECK,)),
    ),
)

DAY_BOAT = Ship(
    name="day-boat", what="day boat without lifeboats, 24.6 m", verdict="fails", heeled="passengers", turned=("heeling moments",),
    shows="117 tonnes and 120 passengers: all of them on one side hold nearly every survival down, and without that moment it would meet",
    length=24.6, breadth=6.4, depth=3.2, deepest=1.4, light=1.25, block=0.52, gm=(2.2, 2.3, 2.4), vents=3.96,
    people=People(in_lifeboats=0, in_excess=124, passengers=120, side=4.8, boats=0, boat=0, davit=0),
    zones=(
        Zone("aft peak", 2.4),
        Zone("steering gear", 5.4),
        Zone("engine room", 9.0, permeability=MACHINERY),
        Zone("saloon aft", 12.6),
        Zone("saloon forward", 16.2),
        Zone("stores", 19.8),
        Zone("fore peak", 24.6),
    ),
)

INNER_WALLS = {"decks": (8.0,), "walled": True}

CRUISE_SHIP = Ship(
    name="cruise-ship", what="small cruise ship, 112 m", verdict="meets", heeled="wind",
    shows="cabin walls hold the water on the damaged side for a while: in some rows it is the intermediate stage that counts",
    length=112.0, breadth=18.4, depth=9.4, deepest=5.2, light=4.6, block=0.6, gm=(2.0, 2.1, 2.25), vents=8.0,
    people=People(in_lifeboats=360, in_excess=60, passengers=300, side=23.0, boats=2, boat=12.0, davit=10.6),
    zones=(
        Zone("aft peak", 8.0, decks=(8.0,)),
        Zone("stores", 19.2, **INNER_WALLS),
        Zone("engine room", 32.0, decks=(8.0,), permeability=MACHINERY),
        Zone("auxiliary machinery", 43.2, decks=(8.0,), permeability=MACHINERY),
        Zone("crew cabins", 54.0, **INNER_WALLS),
        Zone("cabins aft", 65.2, **INNER_WALLS),
        Zone("cabins forward", 77.2, **INNER_WALLS),
        Zone("laundry", 88.4, **INNER_WALLS),
        Zone("bow thruster", 99.2, decks=(8.0,)),
        Zone("fore peak", 112.0, decks=(8.0,)),
    ),
)

CAR_DECK = 8.6
UNDER_THE_CARS = {"decks": (CAR_DECK,), "garage": CAR_DECK}

NIGHT_FERRY = Ship(
    name="night-ferry", what="night ferry, 131.6 m", verdict="meets", heeled="boats",
    shows="under the earlier rule: A reaches R, and each partial index 0.9 R",
    length=131.6, breadth=21.6, depth=13.2, deepest=5.6, light=5.0, block=0.58, gm=(3.1, 3.2, 3.4), vents=13.96,
    people=People(in_lifeboats=640, in_excess=160, passengers=720, side=24.0, boats=4, boat=11.6, davit=13.0),
    zones=(
        Zone("steering gear", 9.6, **UNDER_THE_CARS),
        Zone("stores", 19.2, **UNDER_THE_CARS),
        Zone("engine room aft", 32.4, permeability=MACHINERY, **UNDER_THE_CARS),
        Zone("engine room forward", 45.6, permeability=MACHINERY, **UNDER_THE_CARS),
        Zone("auxiliary machinery", 56.4, permeability=MACHINERY, **UNDER_THE_CARS),
        Zone("crew cabins", 67.2, **UNDER_THE_CARS),
        Zone("cabins aft", 78.0, **UNDER_THE_CARS),
        Zone("cabins forward", 88.8, **UNDER_THE_CARS),
        Zone("stabilizers", 99.6, **UNDER_THE_CARS),
        Zone("void", 110.4, **UNDER_THE_CARS),
        Zone("bow thruster", 119.6, **UNDER_THE_CARS),
        Zone("fore peak", 131.6, decks=(CAR_DECK,)),
    ),
)

NIGHT_FERRY_2020 = NIGHT_FERRY._replace(
    name="night-ferry-2020", what="the same night ferry, under the rule of 2020", verdict="fails", turned=("heeling moments", "ro-ro marks"),
    shows="the same file but for the byte of the rule: R is higher, and A does not reach it",
    people=NIGHT_FERRY.people._replace(rule=1),
)

FLEET = (
    COASTER, BULK_CARRIER, CONTAINER_SHIP, HEAVY_LIFT, TIMBER_CARRIER, REEFER, LIVESTOCK_CARRIER, PAPER_CARRIER, FERRY, DAY_BOAT, CRUISE_SHIP,
    NIGHT_FERRY, NIGHT_FERRY_2020,
)
