#!/usr/bin/env python3
from x25tools import pcap2x25, x25lines

x25lines.run(pcap2x25.main)
