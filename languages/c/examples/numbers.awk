# Writes the input of the examples, the same at each run: pseudorandom numbers from a seed, by Park
# and Miller's generator.
#
#     awk -f numbers.awk -v kind=trace
#     awk -f numbers.awk -v kind=requests
#
# trace: 4,000 lines with a number each, small ones most often, for cache and for C++'s count.
# requests: 2,000 lines with a second, a client and a cost each, 50 a second from five clients, for
# limiter.

# The next number, more than 0 and less than 1.
function drawn() {
    state = state * 16807 % 2147483647
    return state / 2147483647
}

BEGIN {
    state = 20261201
    if (kind == "trace") {
        for (line = 0; line < 4000; line++) {
            part = drawn()
            printf "%d\n", 1 + 1 / (part * part)
        }
    } else if (kind == "requests") {
        for (line = 0; line < 2000; line++) {
            client = int(5 * drawn())
            printf "%d %d %d\n", 1 + line / 50, client, 1 + 24 * drawn()
        }
    } else {
        print "numbers.awk: kind is trace or requests" > "/dev/stderr"
        exit 2
    }
}
