// scrambler.cpp: the multiplicative scrambler of GNU Radio, gr::digital::lfsr, set up as IEEE 802.11b's.
//
// Each line of input is a start (7 bits, last output first) and a row of bits; each line of output the scrambled row.
// The register gives a bit out seven steps after it went in, the start first: those seven are dropped.
#define HAVE_BUILTIN_PARITYL 1
#include <gnuradio/digital/lfsr.h>

#include <iostream>
#include <string>

int main()
{
    std::string start, bits;

    while (std::cin >> start >> bits) {
        // Bit 6 of the register is the last output, bit 3 that of 4 back, bit 0 that of 7 back.
        gr::digital::lfsr scrambler((1 << 3) | (1 << 0), std::stoul(start, nullptr, 2), 6);
        std::string out;
        for (char bit : bits + "0000000")
            out += scrambler.next_bit_scramble(bit == '1') ? '1' : '0';
        std::cout << out.substr(7) << '\n';
    }
}
