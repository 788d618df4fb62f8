#!/usr/bin/env python3
"""Puts a description set together of sets of single devices.

    python3 join.py MACHINES DEVICE.. > SET

MACHINES are the names of the machines whose streams are accepted, with commas between them, or '-' for none.
DEVICE is the name of a file DEVICE.json beside this program, in the order in which the devices are to be written,
and DEVICE:N is the same device as the instance N. A structure that several devices share is taken once.
"""
import json
import os
import sys

WIDTH = 100


def laid_out(value, indent=0, before=0):
    """The JSON text of a value: on one line where it fits, else with a line for each part of it."""
    line = json.dumps(value)
    if not value or not isinstance(value, (dict, list)) or indent + before + len(line) < WIDTH:
        return line
    inner = " " * (indent + 2)
    if isinstance(value, dict):
        parts = [f'"{key}": ' + laid_out(part, indent + 2, len(key) + 4) for key, part in value.items()]
        first, last = "{}"
    else:
        parts = [laid_out(part, indent + 2) for part in value]
        first, last = "[]"
    return first + "\n" + ",\n".join(inner + part for part in parts) + "\n" + " " * indent + last


def renumber(part, numbers):
    """Gives the fields of a description, and those of its subsections, the new numbers of their structures."""
    for field in part["fields"]:
        if "struct" in field:
            field["struct"] = numbers[field["struct"]]
    for subsection in part.get("subsections", []):
        renumber(subsection, numbers)


def add(whole, one, instance):
    """Adds the structures and the device of a set of one device to the whole set."""
    numbers = []
    for structure in one["structs"]:
        renumber(structure, numbers)
        if structure not in whole["structs"]:
            whole["structs"].append(structure)
        numbers.append(whole["structs"].index(structure))
    for device in one["devices"]:
        renumber(device["desc"], numbers)
        device["instance"] = instance
        whole["devices"].append(device)


def main(machines, *devices):
    folder = os.path.dirname(os.path.abspath(__file__))
    whole = {"machines": [] if machines == "-" else machines.split(","), "structs": [], "devices": []}
    for word in devices:
        name, _, instance = word.partition(":")
        with open(os.path.join(folder, name + ".json")) as file:
            add(whole, json.load(file), int(instance or 0))
    print(laid_out(whole))


main(*sys.argv[1:])
