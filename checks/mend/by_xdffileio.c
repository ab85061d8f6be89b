/* Writes an EDF file of two signals by libxdffileio. */
#include <math.h>
#include <stdio.h>
#include <xdfio.h>

#define RATE 64
#define SECONDS 8

int main(int argc, char **argv)
{
	const size_t strides[1] = {2 * sizeof(float)};
	float samples[RATE][2];
	struct xdf *file = xdf_open(argc > 1 ? argv[1] : "xdf.edf", XDF_WRITE, XDF_EDF);
	struct xdfch *channel;
	if (!file) return 1;
	xdf_set_conf(file, XDF_F_REC_DURATION, 1.0, XDF_F_REC_NSAMPLE, RATE,
		     XDF_CF_ARRTYPE, XDFFLOAT, XDF_CF_PMAX, 200.0, XDF_CF_PMIN, -200.0,
		     XDF_CF_ARRINDEX, 0, XDF_CF_ARROFFSET, 0, XDF_CF_ARRDIGITAL, 0,
		     XDF_CF_UNIT, "uV", XDF_CF_TRANSDUCTER, "AgAgCl", XDF_F_SUBJ_DESC, "S-0117",
		     XDF_F_SESS_DESC, "Night 1", XDF_NOF);
	for (int nth = 0; nth < 2; nth++) {
		channel = xdf_add_channel(file, nth ? "Resp nasal" : "EEG C3-A2");
		if (!channel) return 2;
		xdf_set_chconf(channel, XDF_CF_ARROFFSET, (int)(nth * sizeof(float)), XDF_NOF);
	}
	if (xdf_define_arrays(file, 1, strides) || xdf_prepare_transfer(file)) { perror("x"); return 3; }
	for (int second = 0; second < SECONDS; second++) {
		for (int n = 0; n < RATE; n++) {
			samples[n][0] = 100 * sin(2 * M_PI * 3 * n / RATE);
			samples[n][1] = 2 * sin(2 * M_PI * n / RATE);
		}
		if (xdf_write(file, RATE, samples) < 0) { perror("w"); return 4; }
	}
	return xdf_close(file) ? 5 : 0;
}
