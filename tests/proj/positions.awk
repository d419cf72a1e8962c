# Writes positions for one central meridian, a line each: central meridian, longitude, latitude, in hundredths of an
# arcsecond. A grid with the Equator, the poles and both edges of the map, and positions at random.
# Wants central, seed (1 or more) and randoms, the number of those at random.

# A longitude brought between -N and N.
function brought(z) {
    return z > N ? z - 2 * N : z < -N ? z + 2 * N : z
}

# A number from -limit to limit, the same on every awk: the rand() of each has another sequence.
function draw(limit) {
    state = state * 16807 % 2147483647
    return state % (2 * limit + 1) - limit
}

function position(longitude, latitude) {
    printf "%d %d %d\n", central, longitude, latitude
}

# All latitudes of the grid on one meridian: every 7.5 degrees, one unit beside the Equator and the poles, and half an arcminute
# from the Equator, where the straight line of the house sine is farthest below the sine.
function meridian(longitude,    latitude) {
    for (latitude = -H; latitude <= H; latitude += H / 12) position(longitude, latitude)
    position(longitude, 1 - H)
    position(longitude, -1)
    position(longitude, 1)
    position(longitude, -3000)
    position(longitude, 3000)
    position(longitude, H - 1)
}

BEGIN {
    N = 64800000
    H = N / 2
    state = seed
    for (longitude = -N; longitude <= N; longitude += N / 12) meridian(longitude)
    # the edges, and one unit inside them
    meridian(brought(central - N))
    meridian(brought(central - N + 1))
    meridian(brought(central + N - 1))
    meridian(brought(central + N))
    for (i = 0; i < randoms; i++) {
        longitude = draw(N)
        position(longitude, draw(H))
    }
}
