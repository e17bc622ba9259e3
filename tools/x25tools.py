#!/usr/bin/env python3
from x25tools import command

command.script()
