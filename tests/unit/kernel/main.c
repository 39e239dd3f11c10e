/* Reads InfoFrames, a line of hexadecimal digits each, and writes for each what Linux's decoder makes of it: NAME=NUMBER .. with the
 * names of CTA-861, or "refused". */
#include "hdmi.c"

static void avi(const struct hdmi_avi_infoframe *it)
{
	printf("Y=%d S=%d C=%d M=%d R=%d ITC=%d EC=%d Q=%d SC=%d VIC=%d YQ=%d CN=%d PR=%d", it->colorspace, it->scan_mode,
	       it->colorimetry, it->picture_aspect, it->active_aspect, it->itc, it->extended_colorimetry,
	       it->quantization_range, it->nups, it->video_code, it->ycc_quantization_range, it->content_type,
	       it->pixel_repeat);
}

static void audio(const struct hdmi_audio_infoframe *it)
{
	printf("CC=%d CT=%d SS=%d SF=%d CXT=%d CA=%d LSV=%d DM_INH=%d", it->channels, it->coding_type, it->sample_size,
	       it->sample_frequency, it->coding_type_ext, it->channel_allocation, it->level_shift_value, it->downmix_inhibit);
}

static void drm(const struct hdmi_drm_infoframe *it)
{
	printf("EOTF=%d Static_Metadata_Descriptor_ID=%d", it->eotf, it->metadata_type);
	for (int i = 0; i < 3; i++)
		printf(" x%d=%d y%d=%d", i, it->display_primaries[i].x, i, it->display_primaries[i].y);
	printf(" white_x=%d white_y=%d max=%d min=%d MaxCLL=%d MaxFALL=%d", it->white_point.x, it->white_point.y,
	       it->max_display_mastering_luminance, it->min_display_mastering_luminance, it->max_cll, it->max_fall);
}

static void vendor(const struct hdmi_vendor_infoframe *it)
{
	if (it->vic)
		printf("HDMI_VIC=%d", it->vic);
	else if (it->s3d_struct >= HDMI_3D_STRUCTURE_SIDE_BY_SIDE_HALF)
		printf("3D_Structure=%d 3D_Ext_Data=%d", it->s3d_struct, it->s3d_ext_data);
	else
		printf("3D_Structure=%d", it->s3d_struct);
}

int main(void)
{
	char line[256];

	while (fgets(line, sizeof(line), stdin)) {
		u8 data[40] = { 0 };
		size_t size = 0;
		unsigned int byte;
		union hdmi_infoframe frame;

		while (size < sizeof(data) && sscanf(line + 2 * size, "%2x", &byte) == 1)
			data[size++] = byte;
		memset(&frame, 0, sizeof(frame));
		if (hdmi_infoframe_unpack(&frame, data, size) < 0)
			printf("refused");
		else if (data[0] == HDMI_INFOFRAME_TYPE_AVI)
			avi(&frame.avi);
		else if (data[0] == HDMI_INFOFRAME_TYPE_AUDIO)
			audio(&frame.audio);
		else if (data[0] == HDMI_INFOFRAME_TYPE_DRM)
			drm(&frame.drm);
		else if (data[0] == HDMI_INFOFRAME_TYPE_VENDOR)
			vendor(&frame.vendor.hdmi);
		printf("\n");
	}
	return 0;
}
