"""Makes the sample logs beside this file: python3 samples/make.py"""
import os
import struct

MISSING = -32768
LIDW = (b"LIDW", (154, 1760, 614, -396, 590), 100, 497)
HIGH = (b"HIGH", (180, 1900, 600, -390, 580), 120, 1850)
# Little water while the plants are small, most where they cover the ground, and less as they dry.
BEAN = (b"BEAN", 2008, 140, 260, (20, 22, 30, 45, 65, 90, 105, 107, 95, 60, 30))
# Winter wheat, from where it grows again to where it is ripe.
WHEAT = (b"WHEA", 2008, 59, 199, (30, 35, 45, 60, 80, 100, 105, 105, 95, 60, 25))


def station(code, constants, minimum, elevation):
    return bytes([1]) + code + struct.pack(">5hHH", *constants, minimum, elevation)


def limited_station(code, constants, minimum, elevation, limit):
    return bytes([8]) + station(code, constants, minimum, elevation)[1:] + struct.pack(">H", limit)


def day(year, d, maximum, minimum, mean, dewpoint, radiation, wind):
    return bytes([2]) + struct.pack(">HH6h", year, d, maximum, minimum, mean, dewpoint, radiation, wind)


def crop(code, year, start, full, percentages):
    return bytes([6]) + code + struct.pack(">HHH11B", year, start, full, *percentages)


def season(year, first, last, warmth, calmest=600, no_dew_point=()):
    """Plain weather: warmest and brightest at day 200, a little different from day to day."""
    for d in range(first, last + 1):
        off = abs(d - 200)
        turn = (d * 37) % 50
        maximum = 920 + warmth - 3 * off + turn
        minimum = maximum - 330 + turn // 2
        mean = (maximum + minimum) // 2
        dewpoint = MISSING if d in no_dew_point else minimum - 40
        radiation = 7000 - 25 * off - 20 * turn
        wind = calmest + 12 * turn
        yield day(year, d, maximum, minimum, mean, dewpoint, radiation, wind)


def write(name, *parts):
    with open(os.path.join(os.path.dirname(os.path.abspath(__file__)), name), "wb") as f:
        f.write(b"".join(parts))


same = lambda t, wind: (t, t, t, t, 0, wind)
worked = (station(*LIDW), day(2008, 10, *same(200, MISSING)), day(2008, 11, *same(200, MISSING)), day(2008, 12, *same(320, 0)))

write("worked.log", *worked)
write("season.log", station(*LIDW), *season(2008, 105, 288, 0))
write("crop_season.log", station(*LIDW), crop(*BEAN), *season(2008, 130, 270, 0))
write("two_stations.log", station(*LIDW), *season(2008, 180, 186, 0), station(*HIGH), *season(2008, 180, 186, -120))
write("cut_off.log", b"".join(worked)[:-3])

# The same windy days twice: with a limit of 100 miles, which most of them are above, and with the 150 miles of kind 1.
windy = list(season(2008, 180, 189, 0, calmest=900))
fields = LIDW[1:]
write("wind_limit.log", limited_station(b"UTAH", *fields, 1000), *windy, station(b"KIMB", *fields), *windy)

# The dew point alone is missing on day 139, before the crop's start, and on three days of its season; on day 145 the wind is
# missing too, and on day 146 the minimum is above the mean.
partly = season(2008, 139, 144, 0, no_dew_point=(139, 141, 142, 144))
windless = day(2008, 145, 774, 456, 615, MISSING, 5200, MISSING)
disordered = day(2008, 146, 774, 616, 615, MISSING, 5200, 700)
write("no_dew_point.log", station(*LIDW), crop(*BEAN), *partly, windless, disordered, *season(2008, 147, 147, 0))

# Four months of a winter, over a year's end and with 29 February: on 3 January the wind is missing, on 29 February the dew point
# alone, and the wheat's start is 28 February. Of the second station's two days none is answered.
winter = [
    day(2007, 362, 352, 241, 297, 238, 850, 760),
    day(2007, 363, 381, 276, 329, 262, 620, 1140),
    day(2007, 364, 364, 252, 308, 240, 930, 880),
    day(2007, 365, 338, 215, 277, 201, 1120, 540),
    day(2008, 1, 329, 198, 264, 190, 1180, 480),
    day(2008, 2, 347, 226, 287, 214, 960, 690),
    day(2008, 3, 402, 281, 342, 270, 540, MISSING),
    day(2008, 58, 486, 301, 394, 292, 2650, 820),
    day(2008, 59, 512, 318, 415, 297, 2890, 940),
    day(2008, 60, 495, 335, 415, MISSING, 2140, 1260),
    day(2008, 61, 468, 306, 387, 301, 1870, 1310),
    day(2008, 62, 503, 289, 396, 270, 3180, 730),
]
no_temperatures = [day(2008, d, *[MISSING] * 4, 2400, 900) for d in (59, 60)]
write("months.log", station(*LIDW), crop(*WHEAT), *winter, station(*HIGH), *no_temperatures)
