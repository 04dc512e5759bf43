"""The text of the day gets an exclamation mark, and on the way back it loses it."""
import json
import sys

direction, path = sys.argv[-2:]
with open(path, encoding="utf-8") as file:
    held = json.load(file)
for setting in held["live"]:
    if setting[0] == "settings.motd":
        setting[1] = setting[1] + "!" if direction == "--forward" else setting[1].removesuffix("!")
json.dump(held, sys.stdout)
