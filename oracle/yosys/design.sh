#!/bin/sh
# design.sh [TICKS [SEED [BATCH EXPECTED]]]: the designs of design/, synthesised by Yosys, turned into words (convert.py) and run by `simulate`,
# against Icarus Verilog on their source; the one without block RAM and multiplier also against Icarus on the netlist with Yosys' cell models.
# Every line of every tick must be the same. Runs the proved program if crates/simulate/out/simulate is there, and the oracle's always.
# Writes the cases as a batch, with Icarus' lines, where BATCH and EXPECTED are given. Needs oracle/install.sh and oracle/build.sh.
set -e
ticks=${1:-2500} seed=${2:-1} batch=$3 expected=$4
oracle=$(cd "$(dirname "$0")/.." && pwd)
here=$oracle/yosys
work=$(mktemp -d)
trap 'rm -rf "$work"' EXIT
cells=/usr/share/yosys/ecp5/cells_sim.v

synthesised() { # TOP FILE..: TOP.json and TOP.v
    top=$1
    shift
    yosys -q -p "read_verilog -sv $*; synth_ecp5 -top $top -json $work/$top.json; write_verilog -noattr $work/$top.v" > "$work/log" 2>&1 || { cat "$work/log"; exit 1; }
}

lines() { # TOP FILE..: what Icarus shows
    top=$1
    shift
    iverilog -g2012 -DNO_INCLUDES -o "$work/run" -s bench "$work/$top.bench.v" "$@"
    vvp -n "$work/run"
}

[ -z "$batch" ] || : > "$batch" > "$expected"
for top in datapath system doorlog; do
    synthesised $top "$here"/design/*.v
    "$here/convert.py" "$work/$top.json" > "$work/$top.words"
    "$here/bench.py" "$work/$top.json" "$work/$top.words" "$ticks" "$seed" "$work/$top.case" "$work/$top.bench.v"
    lines $top "$here"/design/*.v > "$work/$top.txt"
    if [ $top = datapath ]; then
        lines $top "$work/$top.v" $cells | cmp "$work/$top.txt" -
        echo "$top: Yosys' cell models show what the source shows"
    fi
    for simulate in "$oracle/target/release/simulate" "$oracle/../crates/simulate/out/simulate"; do
        if [ -x "$simulate" ]; then
            "$simulate" < "$work/$top.case" | cmp "$work/$top.txt" -
            echo "$top: $ticks ticks, $(wc -c < "$work/$top.words") bytes of netlist, no difference ($simulate)"
        fi
    done
    if [ -n "$batch" ]; then
        "$oracle/target/release/words" $(($(wc -c < "$work/$top.case") / 4)) | cat - "$work/$top.case" >> "$batch"
        cat "$work/$top.txt" >> "$expected"
    fi
done

# What the words can't say is refused.
refused() { # MESSAGE, source on standard input
    cat > "$work/no.v"
    synthesised no "$work/no.v"
    if "$here/convert.py" "$work/no.json" > "$work/no.words" 2> "$work/no.txt" || ! grep -q "$1" "$work/no.txt"; then
        echo "not refused: $1"
        exit 1
    fi
}
refused "starts at 1" << 'V'
module no(input c, d, output reg q); initial q = 1; always @(posedge c) q <= d; endmodule
V
refused "SIGNEDA is not 0" << 'V'
module no(input signed [17:0] a, b, output signed [35:0] q); assign q = a * b; endmodule
V
refused "does not start at 0" << 'V'
module no(input c, w, input [7:0] a, input [15:0] d, output reg [15:0] q);
    (* ram_style = "block" *) reg [15:0] m [0:255]; initial m[3] = 5;
    always @(posedge c) begin if (w) m[a] <= d; q <= m[a]; end
endmodule
V
refused "different widths, clocks or edges" << 'V'
module no(input c, e, w, input [7:0] a, b, input [15:0] d, output reg [15:0] q);
    (* ram_style = "block" *) reg [15:0] m [0:255];
    always @(posedge c) if (w) m[a] <= d;
    always @(posedge e) q <= m[b];
endmodule
V
refused "data of 36 bits" << 'V'
module no(input c, w, input [7:0] a, b, input [31:0] d, output reg [31:0] q);
    (* ram_style = "block", no_rw_check *) reg [31:0] m [0:255];
    always @(posedge c) begin if (w) m[a] <= d; q <= m[b]; end
endmodule
V
refused "bytes are written apart" << 'V'
module no(input c, input [1:0] w, input [7:0] a, input [17:0] d, output reg [17:0] q);
    (* ram_style = "block" *) reg [17:0] m [0:255];
    always @(posedge c) begin if (w[0]) m[a][8:0] <= d[8:0]; if (w[1]) m[a][17:9] <= d[17:9]; q <= m[a]; end
endmodule
V
refused "WEAMUX is INV" << 'V'
module no(input c, w, a, d, output q);
    DP16KD #(.DATA_WIDTH_A(9), .WRITEMODE_A("READBEFOREWRITE"), .WEAMUX("INV")) m(.CLKA(c), .CEA(1'b1), .WEA(w), .ADA3(a), .DIA0(d), .DOA0(q));
endmodule
V
refused "no such cell" << 'V'
module no(input g, d, output q); EHXPLLL p(.CLKI(d), .STDBY(g), .CLKOP(q)); endmodule
V
echo "what the words can't say is refused"
