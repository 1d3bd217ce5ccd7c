"""What udev makes of an input device: the properties ID_INPUT_.., by which libinput, SDL and others know it.

The rules are those of systemd's `input_id` (version 252). It looks at the supported types and codes, at the
properties, and at the bus.
"""

from typing import Dict, Iterable, List

from inputtools.names import KEY, REL, SLOT, SW
from inputtools.recording import Axis, Device

BUS_I2C = 0x18
POINTING_STICK, ACCELEROMETER, DIRECT = 5, 6, 1
ABS_X, ABS_Y, ABS_Z = range(3)
JOYSTICK_AXES = range(0x03, 0x18)
MT_POSITION = (0x35, 0x36)
MOUSE_BUTTONS = range(0x110, 0x120)
# Those of joysticks and gamepads, of their cross, and the many of BTN_TRIGGER_HAPPY.
JOYSTICK_BUTTONS = (*range(0x120, 0x140), *range(0x220, 0x224), *range(0x2C0, 0x2E8))
TOOL_PEN, TOOL_FINGER, TOUCH, STYLUS = 0x140, 0x145, 0x14A, 0x14B
PAD_BUTTONS = (0x100, 0x101)
REL_X, REL_Y, HWHEEL, WHEEL = 0, 1, 6, 8
FIRST_BUTTON = 0x100
HIGH_KEYS = (*range(0x160, 0x220), *range(0x230, 0x2C0))
FULL_KEYBOARD = range(1, 32)
# Ctrl, Caps Lock, Num Lock, Insert, Mute, the calculator's key, File, Mail, Play and a darker screen: what
# has four is none.
KEYS_OF_NO_JOYSTICK = (29, 58, 69, 110, 113, 140, 144, 155, 164, 224)


class Kind:
    """What a device has, as the rules ask for it."""

    def __init__(self, device: Device, properties: Iterable[int], bus: int) -> None:
        self.has_keys, self.has_switches = KEY in device.codes, SW in device.codes
        self.keys = frozenset(device.codes.get(KEY, ()))
        self.relative = frozenset(device.codes.get(REL, ()))
        self.axes, self.properties, self.bus = frozenset(device.axes), frozenset(properties), bus
        self.has_position = self.axes.issuperset((ABS_X, ABS_Y))
        self.has_mouse_button = not self.keys.isdisjoint(MOUSE_BUTTONS)
        self.has_wheel = WHEEL in self.relative or HWHEEL in self.relative
        self.has_pen = TOOL_PEN in self.keys or STYLUS in self.keys
        self.has_pad_buttons = self.keys.issuperset(PAD_BUTTONS) and TOOL_PEN not in self.keys
        self.is_moved = self.relative.issuperset((REL_X, REL_Y))
        self.is_direct = DIRECT in self.properties

    def is_accelerometer(self) -> bool:
        is_in_space = self.axes.issuperset((ABS_X, ABS_Y, ABS_Z))
        return ACCELEROMETER in self.properties or (is_in_space and not self.has_keys)

    def has_contacts(self) -> bool:
        """Whether it has positions of contacts. (One that has the axis before ABS_MT_SLOT has all axes there
        are.)"""
        return self.axes.issuperset(MT_POSITION) and not self.axes.issuperset((SLOT, SLOT - 1))

    def surface(self) -> str:
        """What it is where it has positions, or contacts: a tablet, a touchpad, a touchscreen, or nothing of
        these."""
        if self.has_pen:
            return "tablet"
        if TOOL_FINGER in self.keys and not self.is_direct:
            return "touchpad"
        return "touchscreen" if TOUCH in self.keys or self.is_direct else ""

    def surfaces(self) -> List[str]:
        """By its positions, and by its contacts. A mouse may have positions too."""
        surface = self.surface()
        is_mouse = self.has_mouse_button and surface in ("touchscreen", "")
        found = [("mouse" if is_mouse else surface)] if self.has_position else []
        return found + ([surface] if self.has_contacts() else [])

    def joystick_parts(self) -> int:
        """How many buttons and axes of a joystick it has."""
        return len(self.keys.intersection(JOYSTICK_BUTTONS)) + len(self.axes.intersection(JOYSTICK_AXES))

    def is_no_joystick(self) -> bool:
        """Whether it is none, though it has a part of one: keyboards and pads often do."""
        is_keyboard = len(self.keys.intersection(KEYS_OF_NO_JOYSTICK)) >= 4
        return is_keyboard or self.joystick_parts() < 2 or (self.has_wheel and self.has_pad_buttons)

    def pointer(self) -> List[str]:
        """The names of the kinds of pointing device that it is."""
        surfaces = self.surfaces()
        is_surface = self.has_position and surfaces[0] != ""
        has_joystick = self.joystick_parts() > 0 and not is_surface
        is_wheel_pad = self.has_pad_buttons and self.has_wheel and not self.is_moved
        is_tablet = "tablet" in surfaces or is_wheel_pad
        is_plain_mouse = self.has_mouse_button and (self.is_moved or not self.has_position)
        is_plain_mouse = is_plain_mouse and not (is_tablet or "touchpad" in surfaces or has_joystick)
        kinds = {
            "MOUSE": "mouse" in surfaces or is_plain_mouse,
            "TOUCHPAD": "touchpad" in surfaces,
            "TOUCHSCREEN": "touchscreen" in surfaces,
            "JOYSTICK": has_joystick and not self.is_no_joystick(),
            "TABLET": is_tablet,
            "TABLET_PAD": is_wheel_pad or (is_tablet and self.has_pad_buttons),
            "POINTINGSTICK": POINTING_STICK in self.properties or (is_plain_mouse and self.bus == BUS_I2C),
        }
        return [name for name, is_one in kinds.items() if is_one]

    def names(self) -> List[str]:
        """The names of what it is."""
        kinds = ["ACCELEROMETER"] if self.is_accelerometer() else self.pointer()
        kinds += [] if self.keys.isdisjoint((*range(1, FIRST_BUTTON), *HIGH_KEYS)) else ["KEY"]
        kinds += ["KEYBOARD"] if self.keys.issuperset(FULL_KEYBOARD) else []
        kinds += ["KEY"] if self.has_wheel and not kinds else []
        return kinds + (["SWITCH"] if self.has_switches else [])


def size_of(axis: Axis) -> int:
    """How many millimetres an axis is long, or 0 where it does not tell."""
    return (axis.maximum - axis.minimum) // axis.resolution if axis.resolution > 0 else 0


def properties_of(device: Device, properties: Iterable[int], bus: int) -> Dict[str, str]:
    """The properties that udev gives the device."""
    found = {"ID_INPUT": "1"}
    found.update((f"ID_INPUT_{name}", "1") for name in Kind(device, properties, bus).names())
    sizes = [size_of(device.axes[code]) for code in (ABS_X, ABS_Y) if code in device.axes]
    if len(sizes) == 2 and all(size > 0 for size in sizes):
        found.update(ID_INPUT_WIDTH_MM=str(sizes[0]), ID_INPUT_HEIGHT_MM=str(sizes[1]))
    return found
