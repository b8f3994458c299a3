/* What of the library is C, in both of its files: the functions that the header defines itself, and
 * the test for NULL before the proved dsa_close, which tools/link-library calls close_device.
 *
 * tools/link-library compiles this. The toolchain has no headers of C, so it gives those three that
 * dsa_model.h takes. */
#define DSA_IN_HEADER
#include "dsa_model.h"

void close_device(struct dsa_model *handle);

void dsa_close(struct dsa_model *handle)
{
	if (handle != NULL)
		close_device(handle);
}
