"""Programs that use the library as its users do, for the tests of what is installed and of what is released: in each
language one that prints ANSWER, in C++ one that prints CPP_ANSWER."""

ASKED = ["place", "2", "1024", "17", "0", "0", "0"]
ANSWER = "symbol 0 carrier -425\n"
CPP_ANSWER = "(0.5,-2)(0.5,-2)\n"

C = """\
#include <bellpulsar.h>
#include <stdio.h>

int main(void) {
    uint32_t symbol, pilots[166];
    int32_t carrier;
    for (uint32_t i = 0; i < 166; i++)
        pilots[i] = 26 + 10 * i;
    if (bp_version() != BP_VERSION_NUMBER ||
        bp_place(BP_FUSC, 2048, 5, 0, 31, 46, pilots, 166, &symbol, &carrier) != BP_ACCEPTED || carrier != -247 ||
        bp_place(BP_FUSC, 2048, 5, 0, 31, 46, pilots, 165, &symbol, &carrier) != BP_REFUSED_PILOTS ||
        bp_place(BP_OFUSC, 1024, 17, 0, 0, 0, NULL, 0, &symbol, &carrier) != BP_ACCEPTED)
        return 1;
    printf("symbol %u carrier %d\\n", (unsigned)symbol, (int)carrier);
    return 0;
}
"""

# A point laid on a grid of complex numbers, found there and looked at.
CPP = """\
#include <bellpulsar.h>
#include <complex>
#include <iostream>
#include <vector>

int main() {
    std::vector<std::complex<float>> points(48), grid(bp_grid_len(BP_OFUSC, 1024) / 2);
    points[0] = {0.5f, -2.0f};
    auto *laid = reinterpret_cast<float *>(points.data()), *held = reinterpret_cast<float *>(grid.data());
    const float pilot[2] = {1.0f, 0.0f};
    if (bp_ground(BP_OFUSC, 1024, 17, 0, 0, nullptr, 0, pilot, held, 2 * grid.size()) != BP_ACCEPTED ||
        bp_lay(BP_OFUSC, 1024, 17, 0, 0, 0, nullptr, 0, laid, 96, held, 2 * grid.size()) != BP_ACCEPTED)
        return 1;
    uint32_t kind, slot, subchannel, index;
    std::complex<float> seen;
    if (bp_look(BP_OFUSC, 1024, 17, 0, 0, nullptr, 0, held, 2 * grid.size(), -425, &kind,
                reinterpret_cast<float *>(&seen), &slot, &subchannel, &index) != BP_ACCEPTED || kind != BP_DATA)
        return 1;
    std::cout << grid[1024 / 2 - 425] << seen << std::endl;
}
"""

CARGO = """\
[package]
name = "yours"
version = "0.1.0"
edition = "2021"

[dependencies]
bellpulsar = { path = "../rust" }
"""

RUST = """\
use bellpulsar::{place, Address, Mode, Setup};

fn main() {
    let setup = Setup { mode: Mode::Ofusc, size: 1024, cell: 17 };
    let at = place(setup, Address { slot: 0, subchannel: 0, index: 0 }).unwrap();
    println!("symbol {} carrier {}", at.symbol, at.carrier);
}
"""

PYTHON = """\
import bellpulsar
print(bellpulsar.__file__, bellpulsar.__version__)
assert bellpulsar.place(7, 2048, 5, 0, 31, 46, pilots=range(26, 1677, 10)).carrier == -247
print("symbol %d carrier %d" % bellpulsar.place(2, 1024, 17, 0, 0, 0))
"""
