/* A Drain waits for what was submitted before it to its queue and under its PASID, and an engine has one at a time. */
#include "check.h"

static uint32_t finish(struct dsa_model *device, struct dsa_answer taken)
{
	struct dsa_answer answer = dsa_finish(device, 0, taken.cell, taken.name, DSA_SUCCESS);
	return answer.kind == DSA_DONE ? answer.more : answer.kind == DSA_NOT_READY ? 0 : UINT32_MAX;
}

static void one_waits(struct dsa_model *device)
{
	struct dsa_descriptor nothing = descriptor_of(0x00, 0, 0), drain = descriptor_of(0x02, 0, 0);
	for (uint32_t pasid = 5; pasid < 7; pasid++)
		CHECK(dsa_enqcmd(device, 0, 0, DSA_UNLIMITED, pasid, &nothing).kind == DSA_ACCEPTED);
	for (uint32_t pasid = 5; pasid < 7; pasid++)
		CHECK(dsa_enqcmd(device, 0, 0, DSA_UNLIMITED, pasid, &drain).kind == DSA_ACCEPTED);
	struct dsa_answer first = dsa_dispatch(device, 0), other = dsa_dispatch(device, 0);
	CHECK(finish(device, other) == 0x01);
	struct dsa_answer waits = dsa_dispatch(device, 0);
	CHECK(waits.kind == DSA_TAKEN && waits.name == 2 && finish(device, waits) == 0);
	CHECK(finish(device, first) == 0x01);
	CHECK(dsa_dispatch(device, 0).kind == DSA_IDLE);
	CHECK(finish(device, waits) == 0x01);
	struct dsa_answer last = dsa_dispatch(device, 0);
	CHECK(last.kind == DSA_TAKEN && last.name == 3 && finish(device, last) == 0x01);
}

static void no_drains(struct dsa_model *device)
{
	struct dsa_descriptor fenced = descriptor_of(0x02, 1, 0), drain = descriptor_of(0x02, 0, 4096);
	struct dsa_descriptor nothing = descriptor_of(0x00, 0, 0);
	struct dsa_limits limits = { 3, 20 };
	CHECK(dsa_check(&drain, &limits, 0) == 0 && dsa_need(&drain, &limits, 0) == 0);
	CHECK(dsa_status(&drain, &limits, 0, DSA_PAGE_FAULT) == 0x01);
	CHECK(dsa_check(&drain, &limits, 1) == 0x10 && dsa_check(&fenced, &limits, 0) == 0x11);
	CHECK(dsa_enqcmd(device, 0, 0, DSA_LIMITED, 5, &nothing).kind == DSA_ACCEPTED);
	CHECK(dsa_enqcmd(device, 0, 0, DSA_LIMITED, 5, &fenced).kind == DSA_ACCEPTED);
	struct dsa_answer held = dsa_dispatch(device, 0), taken = dsa_dispatch(device, 0);
	CHECK(finish(device, taken) == 0x11 && finish(device, held) == 0x01);
}

int main(void)
{
	struct dsa_model device = enabled(100);
	one_waits(&device);
	no_drains(&device);
	CHECK(dsa_held(&device) == 0 && dsa_fates_length(&device) == 6);
	dsa_close(&device);
	return 0;
}
