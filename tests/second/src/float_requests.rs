//! Requests on floats: every edge that document 01 names, and some thousand at random from a fixed seed.
use crate::float_edges;
use crate::float_random;
use crate::request::Request;
use crate::requests::texts;

pub fn all() -> Vec<String> {
    let mut requests = float_edges::anywhere();
    requests.extend(float_edges::mixtures());
    requests.extend(float_edges::positions());
    requests.extend(float_edges::cosines());
    requests.extend(float_edges::angle_halves(&float_edges::SOME_ODD));
    requests.extend(float_edges::places());
    requests.extend(float_edges::place_halves());
    requests.extend(float_random::requests(20_260_102, 700));
    requests.extend(document());
    let mut lines = texts(requests);
    lines.extend(ODD.map(String::from));
    lines
}

pub fn position(kind: i128, central: f64, longitude: f64, latitude: f64) -> Request {
    Request::FloatPosition(kind, [central, longitude, latitude])
}

pub fn place(kind: i128, central: f64, x: f64, y: f64) -> Request {
    Request::FloatPlace(kind, [central, x, y])
}

/// The cases of document 01 and of document 02's order 6 that floats can ask for.
fn document() -> Vec<Request> {
    vec![
        // P1, P2 and P11 in degrees
        position(1, 0.0, 90.0, 45.0),
        position(1, 0.0, -90.0, -45.0),
        position(1, 170.0, -170.0, 0.0),
        position(1, 170.0, -10.0, 0.0),
        // P12, by x and by y
        position(1, 0.0, 0.0078125, 0.0078125),
        position(1, 0.0, -0.0078125, -0.0078125),
        // either side of 180 and of 90 degrees
        position(1, 0.0, 180.0, 90.0),
        position(1, 0.0, 180.0_f64.next_up(), 90.0),
        position(1, 0.0, 180.0, 90.0_f64.next_up()),
        position(1, -0.0, -0.0, -0.0),
        // the pointed pole
        place(7, 0.0, 0.0, 125331414.0),
        place(7, 0.0, 1.0, 125331414.0),
        place(7, 0.0, 0.0, 125331415.0),
        place(7, 0.0, 0.0, 125331414.49),
        place(7, 0.0, 0.0, 125331414.5),
        place(7, 0.0, 0.0, 125331414.5_f64.next_up()),
        place(7, 0.0, 0.49, 125331414.49),
        place(7, 0.0, 0.5, 125331414.49),
        place(7, 0.0, 0.5_f64.next_up(), 125331414.49),
        // its other sides
        place(7, 0.0, -0.0, 125331414.0),
        place(7, 0.0, -0.4, 125331414.0),
        place(7, 0.0, -0.5, 125331414.0),
        place(7, 0.0, -0.5_f64.next_up(), 125331414.0),
        place(7, 0.0, -0.5, -125331414.49),
        place(7, 0.0, 0.5, -125331414.5),
        place(7, 0.0, 0.5, -125331414.5_f64.next_up()),
    ]
}

/// Lines at the edges of what `query` reads: a float is an `x` and 1 to 16 hexadecimal digits, and every other number is
/// decimal.
const ODD: [&str; 47] = [
    // floats in upper case, with zeros before them and with few digits; all ones are a NaN
    "I 1 x0 x41A2B9B0A0000000 x4192B9b0A0000000",
    "F 10 x0 x4056800000000000 x000",
    "F1 x0  x00 x8000000000000000 ",
    "F 1 x0 x0 xFFFFFFFFFFFFFFFF",
    // kinds that are none
    "F -1 x0 x0 x0",
    "F 256 x0 x0 x0",
    "I 18446744073709551617 x0 x0 x0",
    // a float in decimal, in each place
    "F 1 0 x0 x0",
    "F 1 x0 90 x0",
    "F 1 x0 x0 4631530004285489152",
    "I 1 0 x0 x0",
    "I 1 x0 157079632 x0",
    "I 1 x0 x0 -78539816",
    "F 1 x0 90.0 x0",
    // a sign
    "F 1 -x0 x0 x0",
    "F 1 x0 -x4056800000000000 x0",
    "I 1 x0 x0 -x1",
    "I 1 x0 +x1 x0",
    "F 1 x0 x0 x-1",
    // more than 16 digits
    "F 1 x0 x14056800000000000 x0",
    "F 1 x0 x04056800000000000 x0",
    "I 1 x0 x0 x00000000000000000000000004192b9b0a0000000",
    "I 1 x10000000000000000 x0 x0",
    // no digit, or no hexadecimal one
    "F 1 x0 x0 x",
    "F 1 x0 x x0",
    "I 1 x x0 x0",
    "F 1 x0 x0 -x",
    "F 1 x0 x0 xx1",
    "F 1 x0 x0 1x1",
    "F 1 x0 x0 0x1",
    "F 1 x0 x0 X1",
    "F 1 x0 x0 xg",
    "F 1 x0 x0 a",
    // a whole number behind an `x`
    "F x1 x0 x0 x0",
    "f x1 0 32400000 16200000",
    "f 1 0 x1ee6280 16200000",
    "i 1 -x3dcc500 0 0",
    "w x2 25920000",
    "w 2 x18b8200",
    // something missing or too much
    "F",
    "F 1 x0 x0",
    "I 1 x0 x0",
    "I 1 x0 x0 x0 x0",
    "F1x0 x0 x0",
    // whole numbers past 64 bits
    "w 18446744073709551617 0",
    "w 1 18446744073709551617",
    "f 1 0 -18446744073709551616 0",
];
