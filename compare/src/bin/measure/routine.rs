//! The published routine as it is timed: in double precision here, and in single precision as Fortran compiles it.
use compare::days::Case;

/// The routine's mark of a value that is not there.
const NOVAL: f64 = 998_877.0;

/// What the routine is handed: temperatures in °F, radiation in cal/cm², wind in miles, the station's constants.
#[derive(Clone, Copy)]
pub struct Readings<Real> {
    earlier: [Real; 3],
    mean: Real,
    wind: Real,
    maximum: Real,
    minimum: Real,
    dewpoint: Real,
    radiation: Real,
    c: [Real; 5],
    clear_minimum: Real,
    elevation: Real,
    d: Real,
}

impl<Real> Readings<Real> {
    pub fn new(case: &Case, real: impl Fn(f64) -> Real) -> Self {
        let Case {
            station,
            day,
            earlier,
        } = case;
        let tenths = |reading: i16| real(f64::from(reading) / 10.0);
        let units = [1.0, 1e-3, 1e-4, 1e-6, 1e-9];
        Readings {
            earlier: earlier.map(|mean| mean.map_or(real(NOVAL), tenths)),
            mean: tenths(day.mean),
            wind: tenths(day.wind),
            maximum: tenths(day.maximum),
            minimum: tenths(day.minimum),
            dewpoint: tenths(day.dewpoint),
            radiation: tenths(day.radiation),
            c: std::array::from_fn(|i| real(f64::from(station.c[i]) * units[i])),
            clear_minimum: real(station.minimum.into()),
            elevation: real(station.elevation.into()),
            d: real(day.d.into()),
        }
    }
}

impl Readings<f64> {
    /// The routine's statements for one day in double precision. What is timed is its own arithmetic, so every power
    /// has a real exponent, as the routine writes it, and nothing is converted or classified here.
    #[inline(never)]
    pub fn inches(&self) -> f64 {
        let celsius = |fahrenheit: f64| 5.0 * (fahrenheit - 32.0) / 9.0;
        let vapour_pressure = |t: f64| {
            let power = (0.00738 * t + 0.8072).powf(8.0);
            3.38639 * (power - 0.000019 * (1.8 * t + 48.0).abs() + 0.001316)
        };
        let x = self.d;
        let tmean = celsius(self.mean);
        let tmax = celsius(self.maximum);
        let tmin = celsius(self.minimum);
        let kmax = tmax + 273.16;
        let kmin = tmin + 273.16;
        let solar = self.radiation * 0.041868;
        let u2 = self.wind.min(150.0) * 1.6093;

        let plambda = 2.501 - 0.002361 * tmean;
        let dd = 0.2 * (0.00738 * tmean + 0.8072).powf(7.0) - 0.000116;
        let pp = 101.3 * ((288.0 - 0.0065 * self.elevation) / 288.0).powf(5.257);
        let gg = 0.001005 * pp / (0.622 * plambda);
        let fact1 = dd / (dd + gg);
        let fact2 = 1.0 - fact1;

        let (mut preav, mut kount) = (0.0, 0.0);
        for mm_save in self.earlier {
            if mm_save != NOVAL {
                preav += mm_save;
                kount += 1.0;
            }
        }
        preav = if kount == 0.0 {
            self.mean
        } else {
            preav / kount
        };
        let htflux = (tmean - celsius(preav)) * 0.377;

        let vapmn = vapour_pressure(tmin);
        let vapmx = vapour_pressure(tmax);
        let vapdp = vapour_pressure(celsius(self.dewpoint));

        let [c1, c2, c3, c4, c5] = self.c;
        let clrad = c1 + c2 * x + c3 * x.powf(2.0) + c4 * x.powf(3.0) + c5 * x.powf(4.0);
        let rso = clrad.max(self.clear_minimum) * 0.041868;

        let a1 = 0.26 + 0.1 * (-(0.0154 * (x - 177.0)).powf(2.0)).exp();
        let emit = a1 - 0.139 * vapdp.abs().sqrt();
        let rbo = emit * 4.903e-9 * (kmax.powf(4.0) + kmin.powf(4.0)) / 2.0;
        let albedo = 0.29 + 0.06 * (x + 97.92).to_radians().sin();
        let sol = (solar / rso).min(1.0);
        let (a, b) = if sol > 0.70 {
            (1.126, -0.07)
        } else {
            (1.017, -0.06)
        };
        let rb = rbo * (a * sol + b);
        let rn = (1.0 - albedo) * solar - rb;

        let vapde = (vapmn + vapmx) * 0.5 - vapdp;
        let aw = 0.4 + 1.4 * (-((x - 173.0) / 58.0).powf(2.0)).exp();
        let bw = 0.007 + 0.004 * (-((x - 243.0) / 80.0).powf(2.0)).exp();
        let wf = aw + bw * u2;

        let etp_lamb = fact1 * (rn - htflux) + fact2 * 6.43 * wf * vapde;
        (etp_lamb * 0.03937 / plambda).max(0.0)
    }
}

#[cfg(has_fortran)]
impl Readings<f32> {
    /// The same statements in single precision, as Fortran compiles them.
    pub fn inches(&self) -> f32 {
        // The declaration of fortran/etpcomp.f: BIND(C), the two arrays by reference and the other arguments by value.
        extern "C" {
            fn etpcomp(
                mm_save: &[f32; 3],
                ob_mean: f32,
                wr_run: f32,
                ob_max: f32,
                ob_min: f32,
                tp_value: f32,
                sr_value: f32,
                cldyc: &[f32; 5],
                cldym: f32,
                elev: f32,
                x: f32,
            ) -> f32;
        }
        // SAFETY: the two references are to arrays of the lengths that the function reads, and it writes to neither; nothing is
        // asked of the numbers, and it keeps nothing from one call to the next.
        unsafe {
            etpcomp(
                &self.earlier,
                self.mean,
                self.wind,
                self.maximum,
                self.minimum,
                self.dewpoint,
                self.radiation,
                &self.c,
                self.clear_minimum,
                self.elevation,
                self.d,
            )
        }
    }
}
