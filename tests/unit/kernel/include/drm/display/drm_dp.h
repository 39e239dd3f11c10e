#include <linux/types.h>

struct dp_sdp {
	struct { u8 HB0, HB1, HB2, HB3; } sdp_header;
	u8 db[32];
};
#define DP_SDP_AUDIO_INFOFRAME_HB2 0x1b
