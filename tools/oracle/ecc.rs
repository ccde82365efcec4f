//! The oracle: document 000 (src/boost_tracker/ecc.rs of kadu-v/jamtrack-rs at 65aa298d6b, MIT, see NOTICE) with document 01's
//! mathematics and inverse in place of the platform's and nalgebra's, and document 01's number for each way to end. Every loop, sum and
//! order is the Rust's own. `// 01:` marks each line that is not, `// 02:` one that is document 02's.
//!
//! The mathematics is the module `rules` beside this one: rules.rs for document 01's, machine.rs for the machine's. With machine.rs, whose
//! `ADDED` is false, the tests that document 01 adds are not made, and this is document 000 but for nalgebra's inverse.

#![allow(dead_code)]

use super::rules; // 01: for nalgebra and the platform's mathematics

#[derive(Debug, Clone, Copy)]
pub struct EccConfig {
    pub eps: f32,
    pub max_iter: usize,
    pub gauss_filt_size: usize,
    pub resize_long_edge: Option<usize>,
}

impl Default for EccConfig {
    fn default() -> Self {
        Self {
            eps: 1e-4,
            max_iter: 100,
            gauss_filt_size: 1,
            resize_long_edge: Some(350),
        }
    }
}

/// How a call ended: document 01's number, the passes, and the pose with its correlation (zeros for a refusal).
#[derive(Debug, Clone, Copy)]
pub struct Outcome {
    pub number: u8,
    pub passes: usize,
    pub theta: f32,
    pub tx: f32,
    pub ty: f32,
    pub rho: f32,
}

pub fn refusal(number: u8, passes: usize) -> Outcome {
    Outcome { number, passes, theta: 0.0, tx: 0.0, ty: 0.0, rho: 0.0 }
}

/// the sides after resizing, and the two factors
pub fn resized(width: usize, height: usize, edge: Option<usize>) -> (usize, usize, f32, f32) {
    let mut sx = 1.0f32;
    let mut sy = 1.0f32;
    let (mut tw, mut th) = (width, height);
    if let Some(target_long_edge) = edge {
        if target_long_edge > 0 {
            let current_long = width.max(height);
            if current_long > target_long_edge {
                let scale = target_long_edge as f32 / current_long as f32;
                tw = ((width as f32 * scale).round() as usize).max(8);
                th = ((height as f32 * scale).round() as usize).max(8);
                sx = tw as f32 / width as f32;
                sy = th as f32 / height as f32;
            }
        }
    }
    (tw, th, sx, sy)
}

/// the first and the last row of w pixels that hold a mark, or none
pub fn marked_rows(valid: &[bool], w: usize) -> Option<(usize, usize)> {
    let first = valid.iter().position(|&v| v)?; // 02: request 8
    let last = valid.iter().rposition(|&v| v)?;
    Some((first / w, last / w))
}

/// how many words n marks take, sixty-four to a word
pub fn words(n: usize) -> usize {
    n.div_ceil(64) // 02: request 5
}

/// bytes as f32, resized if a side changed, blurred
pub fn prepared(bytes: &[u8], width: usize, height: usize, tw: usize, th: usize, ksize: usize) -> Vec<f32> {
    let plain = gray_u8_to_f32(bytes);
    let scaled = if tw != width || th != height {
        resize_bilinear(&plain, width, height, tw, th)
    } else {
        plain
    };
    gaussian_blur_separable(&scaled, tw, th, ksize)
}

pub fn find_transform_ecc_euclidean(
    template_u8: &[u8],
    input_u8: &[u8],
    width: usize,
    height: usize,
    cfg: EccConfig,
    work: usize,  // 01: how many floats are lent
    marks: usize, // 02: how many words of marks
) -> Outcome {
    if rules::ADDED && (width > 4096 || height > 4096) {
        return refusal(2, 0); // 01
    }
    if width == 0 || height == 0 {
        return refusal(1, 0);
    }
    if template_u8.len() != width * height || input_u8.len() != width * height {
        return refusal(1, 0);
    }
    if cfg.gauss_filt_size == 0 || cfg.gauss_filt_size % 2 == 0 {
        return refusal(1, 0);
    }
    if rules::ADDED && (cfg.gauss_filt_size > 31 || cfg.max_iter > 1000) {
        return refusal(3, 0); // 01
    }

    let (tw, th, sx, sy) = resized(width, height, cfg.resize_long_edge);
    if rules::ADDED && (work < 12 * tw * th || marks < words(tw * th)) {
        return refusal(4, 0); // 01
    }
    let template_blur = prepared(template_u8, width, height, tw, th, cfg.gauss_filt_size);
    let input_blur = prepared(input_u8, width, height, tw, th, cfg.gauss_filt_size);
    let grad_x = gradient_x(&input_blur, tw, th);
    let grad_y = gradient_y(&input_blur, tw, th);

    let mut theta = 0.0f32;
    let mut tx = 0.0f32;
    let mut ty = 0.0f32;
    let mut last_rho = f32::NEG_INFINITY;
    let mut rho = -1.0f32;

    let n = tw * th;
    let mut warped = vec![0.0f32; n];
    let mut gxw = vec![0.0f32; n];
    let mut gyw = vec![0.0f32; n];
    let mut valid = vec![false; n];
    let mut template_zm = vec![0.0f32; n];
    let mut image_zm = vec![0.0f32; n];

    let mut passes = 0; // 01: counts warps
    for _ in 0..cfg.max_iter {
        passes += 1; // 01
        let map = affine_from_theta_tx_ty(theta, tx, ty);
        let valid_count = warp_three_inverse_map(
            &input_blur,
            &grad_x,
            &grad_y,
            tw,
            th,
            &map,
            &mut warped,
            &mut gxw,
            &mut gyw,
            &mut valid,
        );

        if valid_count < 16 {
            return refusal(5, passes);
        }

        let (tmp_norm, img_norm, corr) = centered_stats_in_place(
            &template_blur,
            &warped,
            &valid,
            &mut template_zm,
            &mut image_zm,
        );

        if tmp_norm <= 1e-6 || img_norm <= 1e-6 {
            return refusal(6, passes);
        }

        rho = corr / (img_norm * tmp_norm);
        if !rho.is_finite() {
            return refusal(7, passes);
        }

        if last_rho.is_finite() && (rho - last_rho).abs() < cfg.eps {
            break;
        }
        last_rho = rho;

        let ct = rules::cos(theta); // 01
        let st = rules::sin(theta); // 01

        let mut h = [[0.0f32; 3]; 3];
        let mut image_proj = [0.0f32; 3];
        let mut template_proj = [0.0f32; 3];
        let mut error_proj = [0.0f32; 3];

        for i in 0..n {
            if !valid[i] {
                continue;
            }
            let x = (i % tw) as f32;
            let y = (i / tw) as f32;
            let hat_x = -(x * st) - (y * ct);
            let hat_y = (x * ct) - (y * st);
            let j0 = gxw[i] * hat_x + gyw[i] * hat_y;
            let j1 = gxw[i];
            let j2 = gyw[i];
            let j = [j0, j1, j2];

            for r in 0..3 {
                image_proj[r] += j[r] * image_zm[i];
                template_proj[r] += j[r] * template_zm[i];
                for c in 0..3 {
                    h[r][c] += j[r] * j[c];
                }
            }
        }

        let Some(h_inv) = rules::inverse(&h) else {
            return refusal(8, passes); // 01
        };

        let ip = image_proj;
        let tp = template_proj;
        let image_proj_hessian = rules::times(&h_inv, &ip); // 01
        let lambda_n = img_norm * img_norm - rules::dot(&ip, &image_proj_hessian);
        let lambda_d = corr - rules::dot(&tp, &image_proj_hessian);

        if lambda_d <= 0.0 || !lambda_d.is_finite() {
            return refusal(9, passes);
        }

        let lambda = lambda_n / lambda_d;
        if !lambda.is_finite() {
            return refusal(9, passes);
        }

        for i in 0..n {
            if !valid[i] {
                continue;
            }
            let x = (i % tw) as f32;
            let y = (i / tw) as f32;
            let hat_x = -(x * st) - (y * ct);
            let hat_y = (x * ct) - (y * st);
            let j0 = gxw[i] * hat_x + gyw[i] * hat_y;
            let j1 = gxw[i];
            let j2 = gyw[i];
            let e = lambda * template_zm[i] - image_zm[i];
            error_proj[0] += j0 * e;
            error_proj[1] += j1 * e;
            error_proj[2] += j2 * e;
        }

        let delta = rules::times(&h_inv, &error_proj); // 01
        theta += delta[0];
        tx += delta[1];
        ty += delta[2];
        if rules::ADDED && (!(-2.0..=2.0).contains(&theta) || !tx.is_finite() || !ty.is_finite()) {
            return refusal(10, passes); // 01
        }
    }

    if !rho.is_finite() {
        return refusal(7, passes); // never: rho is -1 or was tested
    }

    // Translation was estimated in scaled coordinates; map back to original image.
    let tx_unscaled = tx / sx;
    let ty_unscaled = ty / sy;
    if rules::ADDED && (!tx_unscaled.is_finite() || !ty_unscaled.is_finite()) {
        return refusal(10, passes); // 01
    }
    Outcome { number: 0, passes, theta, tx: tx_unscaled, ty: ty_unscaled, rho }
}

/// the matrix of an outcome
pub fn matrix(o: &Outcome) -> [[f32; 3]; 3] {
    let bad = o.number != 0 || !o.tx.is_finite() || !o.ty.is_finite() || !(-2.0..=2.0).contains(&o.theta);
    if bad {
        return identity3(); // 01
    }
    affine_from_theta_tx_ty(o.theta, o.tx, o.ty)
}

pub fn identity3() -> [[f32; 3]; 3] {
    [[1.0, 0.0, 0.0], [0.0, 1.0, 0.0], [0.0, 0.0, 1.0]]
}

pub fn affine_from_theta_tx_ty(theta: f32, tx: f32, ty: f32) -> [[f32; 3]; 3] {
    let ct = rules::cos(theta); // 01
    let st = rules::sin(theta); // 01
    [[ct, -st, tx], [st, ct, ty], [0.0, 0.0, 1.0]]
}

pub fn gray_u8_to_f32(img: &[u8]) -> Vec<f32> {
    img.iter().map(|&v| v as f32).collect()
}

pub fn resize_bilinear(
    src: &[f32],
    src_w: usize,
    src_h: usize,
    dst_w: usize,
    dst_h: usize,
) -> Vec<f32> {
    let mut out = vec![0.0f32; dst_w * dst_h];
    let scale_x = src_w as f32 / dst_w as f32;
    let scale_y = src_h as f32 / dst_h as f32;
    for dy in 0..dst_h {
        let sy = (dy as f32 + 0.5) * scale_y - 0.5;
        let y0 = sy.floor().max(0.0) as isize;
        let y1 = (y0 + 1).min((src_h - 1) as isize);
        let wy = sy - y0 as f32;
        for dx in 0..dst_w {
            let sx = (dx as f32 + 0.5) * scale_x - 0.5;
            let x0 = sx.floor().max(0.0) as isize;
            let x1 = (x0 + 1).min((src_w - 1) as isize);
            let wx = sx - x0 as f32;
            let p00 = src[y0 as usize * src_w + x0 as usize];
            let p01 = src[y0 as usize * src_w + x1 as usize];
            let p10 = src[y1 as usize * src_w + x0 as usize];
            let p11 = src[y1 as usize * src_w + x1 as usize];
            out[dy * dst_w + dx] = (1.0 - wy) * ((1.0 - wx) * p00 + wx * p01)
                + wy * ((1.0 - wx) * p10 + wx * p11);
        }
    }
    out
}

pub fn gaussian_blur_separable(
    src: &[f32],
    w: usize,
    h: usize,
    ksize: usize,
) -> Vec<f32> {
    if ksize <= 1 {
        return src.to_vec();
    }
    let kernel = gaussian_kernel(ksize);
    let radius = (ksize / 2) as isize;
    let mut tmp = vec![0.0f32; w * h];
    let mut out = vec![0.0f32; w * h];

    for y in 0..h {
        for x in 0..w {
            let mut acc = 0.0f32;
            for k in 0..ksize {
                let xx = ((x as isize + k as isize - radius)
                    .clamp(0, (w - 1) as isize))
                    as usize;
                acc += src[y * w + xx] * kernel[k];
            }
            tmp[y * w + x] = acc;
        }
    }
    for y in 0..h {
        for x in 0..w {
            let mut acc = 0.0f32;
            for k in 0..ksize {
                let yy = ((y as isize + k as isize - radius)
                    .clamp(0, (h - 1) as isize))
                    as usize;
                acc += tmp[yy * w + x] * kernel[k];
            }
            out[y * w + x] = acc;
        }
    }
    out
}

pub fn gaussian_kernel(ksize: usize) -> Vec<f32> {
    let sigma = 0.3 * ((ksize as f32 - 1.0) * 0.5 - 1.0) + 0.8;
    let radius = (ksize / 2) as isize;
    let mut k = vec![0.0f32; ksize];
    let mut sum = 0.0f32;
    for i in 0..ksize {
        let x = i as isize - radius;
        let v = rules::exp_neg((x * x) as f32 / (2.0 * sigma * sigma)); // 01
        k[i] = v;
        sum += v;
    }
    for v in &mut k {
        *v /= sum;
    }
    k
}

pub fn gradient_x(src: &[f32], w: usize, h: usize) -> Vec<f32> {
    let mut out = vec![0.0f32; w * h];
    for y in 0..h {
        for x in 0..w {
            let l = if x == 0 { x } else { x - 1 };
            let r = if x + 1 >= w { x } else { x + 1 };
            out[y * w + x] = 0.5 * (src[y * w + r] - src[y * w + l]);
        }
    }
    out
}

pub fn gradient_y(src: &[f32], w: usize, h: usize) -> Vec<f32> {
    let mut out = vec![0.0f32; w * h];
    for y in 0..h {
        let u = if y == 0 { y } else { y - 1 };
        let d = if y + 1 >= h { y } else { y + 1 };
        for x in 0..w {
            out[y * w + x] = 0.5 * (src[d * w + x] - src[u * w + x]);
        }
    }
    out
}

#[allow(clippy::too_many_arguments)]
pub fn warp_three_inverse_map(
    src0: &[f32],
    src1: &[f32],
    src2: &[f32],
    w: usize,
    h: usize,
    map: &[[f32; 3]; 3],
    out0: &mut [f32],
    out1: &mut [f32],
    out2: &mut [f32],
    valid: &mut [bool],
) -> usize {
    let mut valid_count = 0usize;
    for y in 0..h {
        for x in 0..w {
            let i = y * w + x;
            let xf = x as f32;
            let yf = y as f32;
            let sx = map[0][0] * xf + map[0][1] * yf + map[0][2];
            let sy = map[1][0] * xf + map[1][1] * yf + map[1][2];
            if sx >= 0.0 && sy >= 0.0 && sx < (w - 1) as f32 && sy < (h - 1) as f32 {
                let x0 = sx.floor() as usize;
                let y0 = sy.floor() as usize;
                let x1 = x0 + 1;
                let y1 = y0 + 1;
                let wx = sx - x0 as f32;
                let wy = sy - y0 as f32;
                let w00 = (1.0 - wx) * (1.0 - wy);
                let w01 = wx * (1.0 - wy);
                let w10 = (1.0 - wx) * wy;
                let w11 = wx * wy;

                let i00 = y0 * w + x0;
                let i01 = y0 * w + x1;
                let i10 = y1 * w + x0;
                let i11 = y1 * w + x1;

                out0[i] = src0[i00] * w00 + src0[i01] * w01 + src0[i10] * w10 + src0[i11] * w11;
                out1[i] = src1[i00] * w00 + src1[i01] * w01 + src1[i10] * w10 + src1[i11] * w11;
                out2[i] = src2[i00] * w00 + src2[i01] * w01 + src2[i10] * w10 + src2[i11] * w11;
                valid[i] = true;
                valid_count += 1;
            } else {
                out0[i] = 0.0;
                out1[i] = 0.0;
                out2[i] = 0.0;
                valid[i] = false;
            }
        }
    }
    valid_count
}

pub fn means_over_mask(a: &[f32], b: &[f32], mask: &[bool]) -> (f32, f32) {
    let mut sa = 0.0f32;
    let mut sb = 0.0f32;
    let mut n = 0usize;
    for i in 0..a.len() {
        if mask[i] {
            sa += a[i];
            sb += b[i];
            n += 1;
        }
    }
    let nf = n as f32;
    (sa / nf, sb / nf)
}

pub fn centered_stats_in_place(
    template: &[f32],
    image: &[f32],
    mask: &[bool],
    template_zm: &mut [f32],
    image_zm: &mut [f32],
) -> (f32, f32, f32) {
    let (t_mean, i_mean) = means_over_mask(template, image, mask);
    let mut t_ss = 0.0f32;
    let mut i_ss = 0.0f32;
    let mut corr = 0.0f32;
    for i in 0..template.len() {
        if !mask[i] {
            template_zm[i] = 0.0;
            image_zm[i] = 0.0;
            continue;
        }
        let tv = template[i] - t_mean;
        let iv = image[i] - i_mean;
        template_zm[i] = tv;
        image_zm[i] = iv;
        t_ss += tv * tv;
        i_ss += iv * iv;
        corr += tv * iv;
    }
    (t_ss.sqrt(), i_ss.sqrt(), corr)
}

