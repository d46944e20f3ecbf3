#!/bin/sh
# Installs what oracle/build.sh needs besides cargo (patch), and what the comparisons with Yosys need: the cell models and synth_ecp5 (package yosys) and a
# Verilog simulator. Run as root, on Debian.
set -e
apt-get update
apt-get install -y --no-install-recommends patch yosys iverilog
test -f /usr/share/yosys/ecp5/cells_sim.v
