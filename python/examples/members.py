"""Lists the types of a file with their fields and methods: members.py FILE"""
import sys

import clim

try:
    with clim.open(sys.argv[1]) as assembly:
        for type in assembly.types:
            print(type.full_name)
            for member in type.fields + type.methods:
                print(f"  {member.name}")
except clim.Fault as fault:
    sys.exit(str(fault))
