"""A remapper: remapper.py NODE. It grabs a keyboard, and makes a device of which KEY_B comes where the
keyboard's KEY_A does. It ends with the keyboard."""

import sys

from evdev import InputDevice, UInput, ecodes

keyboard = InputDevice(sys.argv[1])
made = UInput.from_device(keyboard, name="remapped")
keyboard.grab()
try:
    for event in keyboard.read_loop():
        code = ecodes.KEY_B if (event.type, event.code) == (ecodes.EV_KEY, ecodes.KEY_A) else event.code
        made.write(event.type, code, event.value)
except OSError:
    made.close()
