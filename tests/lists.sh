# For scripts that make files for `busrun`.

# words W ..: 32-bit words, low byte first.
words() {
    for word in "$@"; do
        printf '%b' "$(printf '\\x%02x\\x%02x\\x%02x\\x%02x' $((word & 255)) $((word >> 8 & 255)) $((word >> 16 & 255)) $((word >> 24)))"
    done
}

# header CALLS OPERATIONS DATA [RETRIES]: 36 MHz, Standard, 100,000 Hz, all else 0.
header() { words "$1" 64 "$2" $((64 + 8 * $1)) "$3" $((64 + 8 * $1 + 8 * $2)) 36000000 0 0 100000 0 "${4:-0}" 0 0 0 0; }
