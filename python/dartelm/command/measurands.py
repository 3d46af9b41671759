"""The 46 cases of the physical measurand, with the units that templates 33 and 32 give them (document 000, Annex A), and other
units that people have for the same quantities.

Case 28 is printed as kg/liter there, and its values in kg/m3: its lines decide.
"""
from fractions import Fraction

from .units import Unit

KILO = "mkM"
SHOWN = ("", "k", "M")
CASES = (
    ("temperature", Unit("K")),
    ("temperature", Unit("°C", also=("C", "degC"))),
    ("strain", Unit("strain")),
    ("strain", Unit("microstrain")),
    ("force/weight", Unit("N", prefixes=KILO, shown=SHOWN, most=10000)),
    ("force/weight", Unit("lb")),
    ("force/weight", Unit("kgf")),
    ("acceleration", Unit("m/s²", also=("m/s2",))),
    ("acceleration", Unit("ga", also=("g",))),
    ("torque", Unit("Nm/radian")),
    ("torque", Unit("Nm", prefixes=KILO, shown=SHOWN, most=10000)),
    ("torque", Unit("oz-in")),
    ("pressure", Unit("Pa", prefixes=KILO, shown=SHOWN, most=10000)),
    ("pressure", Unit("psi", also=("PSI",))),
    ("mass", Unit("kg")),
    ("mass", Unit("g")),
    ("distance", Unit("m")),
    ("distance", Unit("mm")),
    ("distance", Unit("in")),
    ("velocity", Unit("m/s")),
    ("velocity", Unit("mph")),
    ("velocity", Unit("fps")),
    ("angular position", Unit("radian", also=("radians", "rad"))),
    ("angular position", Unit("degrees", also=("degree", "deg", "°"))),
    ("rotational velocity", Unit("radian/s", also=("rad/s",))),
    ("rotational velocity", Unit("rpm")),
    ("frequency", Unit("Hz", prefixes=KILO, shown=SHOWN, most=10000)),
    ("concentration", Unit("g/l")),
    ("concentration", Unit("kg/m³", also=("kg/m3",))),
    ("molar concentration", Unit("mole/m³", also=("mole/m3",))),
    ("molar concentration", Unit("mole/l")),
    ("volumetric concentration", Unit("m³/m³", also=("m3/m3",))),
    ("volumetric concentration", Unit("l/l")),
    ("mass flow", Unit("kg/s")),
    ("volumetric flow", Unit("m³/s", also=("m3/s",))),
    ("volumetric flow", Unit("m³/hr", also=("m3/hr", "m³/h", "m3/h"))),
    ("volumetric flow", Unit("gpm")),
    ("volumetric flow", Unit("cfm")),
    ("volumetric flow", Unit("l/min")),
    ("relative humidity", Unit("RH")),
    ("ratio", Unit("%", also=("percent", "per cent"))),
    ("voltage", Unit("V", also=("v",), prefixes=KILO)),
    ("RMS voltage", Unit("V rms", also=("Vrms",))),
    ("current", Unit("A", prefixes=KILO)),
    ("RMS current", Unit("A rms", also=("Arms",))),
    ("power", Unit("W", prefixes=KILO, shown=SHOWN, most=10000)),
)

# Units by what they are in the SI unit, exactly: the inch, the pound, the gallon and standard gravity are defined so.
INCH, POUND, GRAVITY = Fraction("0.0254"), Fraction("0.45359237"), Fraction("9.80665")
FOOT, GALLON = 12 * INCH, 231 * INCH**3
POUND_FORCE, HOUR = POUND * GRAVITY, 3600
FORCE = {"N": 1, "daN": 10, "lbf": POUND_FORCE, "kgf": GRAVITY, "kp": GRAVITY, "ozf": POUND_FORCE / 16}
PRESSURE = {
    "Pa": 1,
    "bar": 100000,
    "mbar": 100,
    "psi": POUND_FORCE / INCH**2,
    "hPa": 100,
    "kPa": 1000,
    "MPa": 1000000,
    "atm": 101325,
    "at": GRAVITY * 10000,
    "kgf/cm2": GRAVITY * 10000,
    "kgf/cm\u00b2": GRAVITY * 10000,
    "N/mm2": 1000000,
    "N/mm\u00b2": 1000000,
}
TORQUE = {
    "Nm": 1,
    "lbf-ft": POUND_FORCE * FOOT,
    "ft-lb": POUND_FORCE * FOOT,
    "lbf-in": POUND_FORCE * INCH,
    "in-lb": POUND_FORCE * INCH,
    "oz-in": POUND_FORCE * INCH / 16,
    "kgf-m": GRAVITY,
    "Ncm": Fraction(1, 100),
}
MASS = {"kg": 1, "g": Fraction(1, 1000), "lb": POUND, "oz": POUND / 16, "t": 1000}
LENGTH = {"m": 1, "mm": Fraction(1, 1000), "cm": Fraction(1, 100), "um": Fraction(1, 1000000), "in": INCH, "ft": FOOT, "km": 1000}
SPEED = {"m/s": 1, "km/h": Fraction(1000, HOUR), "mph": 5280 * FOOT / HOUR, "fps": FOOT, "ft/s": FOOT}
DENSITY = {"kg/m\u00b3": 1, "g/l": 1, "kg/l": 1000, "g/cm3": 1000, "g/cm\u00b3": 1000, "mg/l": Fraction(1, 1000)}
MASS_FLOW = {"kg/s": 1, "kg/h": Fraction(1, HOUR), "g/s": Fraction(1, 1000), "kg/min": Fraction(1, 60)}
FLOW = {
    "m\u00b3/s": 1,
    "m3/s": 1,
    "m\u00b3/hr": Fraction(1, HOUR),
    "m3/hr": Fraction(1, HOUR),
    "m3/h": Fraction(1, HOUR),
    "l/s": Fraction(1, 1000),
    "l/min": Fraction(1, 60000),
    "gpm": GALLON / 60,
    "cfm": FOOT**3 / 60,
}
POWER = {"W": 1, "hp": 550 * POUND_FORCE * FOOT, "PS": 75 * GRAVITY}
ACCELERATION = {"m/s\u00b2": 1, "g": GRAVITY, "ft/s2": FOOT, "ft/s\u00b2": FOOT}
QUANTITIES = (
    ((4,), FORCE),
    ((7,), ACCELERATION),
    ((10,), TORQUE),
    ((12, 13), PRESSURE),
    ((14, 15), MASS),
    ((16, 17, 18), LENGTH),
    ((19, 20, 21), SPEED),
    ((28,), DENSITY),
    ((33,), MASS_FLOW),
    ((34, 35, 36, 37, 38), FLOW),
    ((45,), POWER),
)


def name_others():
    for codes, units in QUANTITIES:
        for code in codes:
            unit = CASES[code][1]
            own = Fraction(units[unit.name])
            unit.others = {name: factor / own for name, factor in units.items() if unit.exponent(name) is None}


name_others()


def is_unit(word):
    """Whether a word is a unit of some measurand."""
    return any(unit.factor(word) is not None for _, unit in CASES)


def unit_of(code):
    """The unit of a sheet's physical figures."""
    return CASES[code][1]


def code_of(text):
    """The case whose unit this is; None where there is none."""
    for code, (_, unit) in enumerate(CASES):
        if text == unit.name:
            return code
    for code, (_, unit) in enumerate(CASES):
        if text in unit.spellings:
            return code
    return None
