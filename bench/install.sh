#!/bin/sh
# Installs the two Verilog simulators that bench/run-simulate.sh times the run against, and the C++ compiler that Verilator needs. Run as root, on Debian.
set -e
apt-get update
apt-get install -y --no-install-recommends iverilog verilator g++ make
iverilog -V | head -n 1
verilator --version
