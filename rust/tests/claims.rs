//! What a fix claims, and geodesy: against numbers that are known without the library.

use jifrosk::geo::{enu_basis, from_ecef, from_mm, to_ecef, to_mm, Geodetic};
use jifrosk::{chi2_limit, Altitude, Fix};

fn fix(covariance: [[f64; 3]; 3]) -> Fix {
    Fix {
        spec: 8,
        ecef: [6_378_137.0, 0.0, 0.0],
        position: Geodetic::default(),
        t_m: 0.0,
        transmit_ps: 0,
        covariance,
        n: 4,
        used: 15,
        altitude: None::<Altitude>,
        chi2: 0.0,
        dof: 0,
    }
}

/// At latitude and longitude 0 east is y, north is z and up is x.
#[test]
fn the_local_frame_at_the_origin() {
    assert_eq!(
        enu_basis(0.0, 0.0),
        [[-0.0, 1.0, 0.0], [-0.0, -0.0, 1.0], [1.0, 0.0, 0.0]]
    );
    let enu = fix([[9.0, 0.0, 0.0], [0.0, 4.0, 1.0], [0.0, 1.0, 12.0]]).enu_covariance();
    assert_eq!(enu, [[4.0, 1.0, 0.0], [1.0, 12.0, 0.0], [0.0, 0.0, 9.0]]);
}

/// The root of half the sum of the variances of east and north: (4 + 12) / 2 is 8.
#[test]
fn one_number_for_the_plane() {
    assert_eq!(
        fix([[9.0, 0.0, 0.0], [0.0, 4.0, 1.0], [0.0, 1.0, 12.0]]).horizontal_sigma_m(),
        8f64.sqrt()
    );
}

#[test]
fn chi_square_limits() {
    assert_eq!(chi2_limit(0), 0.0);
    assert!((1..32).all(|dof| chi2_limit(dof) < chi2_limit(dof + 1) && chi2_limit(dof) > f64::from(dof)));
}

/// The equator lies 6,378,137 m from the centre, WGS 84's first axis.
#[test]
fn to_the_earth_and_back() {
    let place = Geodetic {
        lat_deg: 0.0,
        lon_deg: 0.0,
        height_m: 100.0,
    };
    assert_eq!(to_ecef(place), [6_378_237.0, 0.0, 0.0]);
    assert_eq!(from_ecef([6_378_237.0, 0.0, 0.0]), place);
    assert_eq!(to_mm([0.0005, -1.0005, f64::NAN]), [1, -1001, 0]);
    assert_eq!(from_mm([1, -1001, 0]), [0.001, -1.001, 0.0]);
}
