# Holds places to PROJ's. A line has central meridian, longitude and latitude, then x and y of the place, then PROJ's x and y
# of that position. Wants bound, in map units, and direction: forward where the place is our answer, inverse where the
# position is. It prints how near they are, and ends with status 0 if every line is within the bound.

function size(z) {
    return z < 0 ? -z : z
}

function whole(z) {
    return z ~ /^-?[0-9]+$/
}

function decimal(z) {
    return z ~ /^-?[0-9]+\.[0-9]+$/
}

# The difference from the central meridian, brought between -N and N.
function difference(central, longitude,    d) {
    d = longitude - central
    return d > N ? d - 2 * N : d < -N ? d + 2 * N : d
}

# PROJ's x. Exactly 180 degrees from the central meridian both edges are one meridian, and which of them PROJ takes is decided
# by its rounding of radians: forward must take the difference's, and inverse was handed one.
function proj_x(d, x, theirs) {
    if (size(d) != N) return theirs
    return (direction == "forward" ? d : x) < 0 ? -size(theirs) : size(theirs)
}

# Counts a fault, and keeps the first.
function fault(what) {
    if (faults++ == 0) first = what ", central meridian, longitude, latitude, x, y, PROJ's x and y: " $0
}

BEGIN {
    N = 64800000
}

# a refusal of ours, a * of PROJ's, or a line that is missing
NF != 7 || !whole($2) || !whole($3) || !whole($4) || !whole($5) || !decimal($6) || !decimal($7) {
    fault("not answered")
    next
}

{
    x = size($4 - proj_x(difference($1, $2), $4, $6))
    y = size($5 - $7)
    if (x > farthest) farthest = x
    if (y > farthest) farthest = y
    if (x > bound || y > bound) fault("too far")
}

END {
    if (NR == 0) fault("no points")
    if (faults) printf "%d of %d points, the first %s\n", faults, NR, first
    else printf "%d points within %.2f units\n", NR, farthest
    exit faults > 0
}
