/* Two hosts answer each other's frames over their adapters: the one with hart 0 begins, and each halts with how many
 * frames came to it, which are three. Hart 0 sleeps until its adapter interrupts, hart 1 polls. */
#include "host.h"
#include "nic_8254x.h"

#define DESCRIPTORS 8
#define BUFFER 2048
#define FRAMES 3

static const uint32_t bar = HOST_BAR(0);

static volatile struct nic_rx_desc rx_ring[DESCRIPTORS] __attribute__((aligned(16)));
static volatile struct nic_tx_desc tx_ring[DESCRIPTORS] __attribute__((aligned(16)));
static uint8_t buffers[DESCRIPTORS][BUFFER];
static uint32_t rx_next, tx_next;
static uint8_t frame[15];

static uint32_t hart(void) {
  uint32_t number;
  __asm__ volatile(".option push\n.option arch, +zicsr\ncsrr %0, mhartid\n.option pop" : "=r"(number));
  return number;
}

/* WFI waits for the interrupt line, and no trap is taken. */
static void enable_wfi(void) {
  __asm__ volatile(".option push\n.option arch, +zicsr\ncsrs mie, %0\n.option pop" : : "r"(0x800));
}

static void wfi(void) { __asm__ volatile("wfi" : : : "memory"); }

/* What was written to RAM is there before the adapter is told, and what it wrote is read after it told. */
static void barrier(void) { __asm__ volatile("fence" : : : "memory"); }

static void open_rings(void) {
  for (int i = 0; i < DESCRIPTORS; i++) rx_ring[i].addr = (uint32_t)buffers[i];
  NIC_REG(bar, NIC_CTRL) = NIC_CTRL_SLU;
  NIC_REG(bar, NIC_RDBAL) = (uint32_t)rx_ring;
  NIC_REG(bar, NIC_RDBAH) = 0;
  NIC_REG(bar, NIC_RDLEN) = sizeof rx_ring;
  NIC_REG(bar, NIC_RDH) = 0;
  NIC_REG(bar, NIC_RDT) = DESCRIPTORS - 1;
  NIC_REG(bar, NIC_TDBAL) = (uint32_t)tx_ring;
  NIC_REG(bar, NIC_TDBAH) = 0;
  NIC_REG(bar, NIC_TDLEN) = sizeof tx_ring;
  NIC_REG(bar, NIC_TDH) = 0;
  NIC_REG(bar, NIC_TDT) = 0;
  NIC_REG(bar, NIC_RCTL) = NIC_RCTL_EN | NIC_RCTL_BSIZE_2048;
  NIC_REG(bar, NIC_TCTL) = NIC_TCTL_EN | NIC_TCTL_PSP;
}

/* Sends a frame, and waits until it is sent. */
static void send(const uint8_t *data, uint16_t length) {
  volatile struct nic_tx_desc *descriptor = &tx_ring[tx_next];
  descriptor->addr = (uint32_t)data;
  descriptor->length = length;
  descriptor->cso = 0;
  descriptor->cmd = NIC_TXD_CMD_EOP | NIC_TXD_CMD_RS;
  descriptor->status = 0;
  tx_next = (tx_next + 1) % DESCRIPTORS;
  barrier();
  NIC_REG(bar, NIC_TDT) = tx_next;
  while (!(descriptor->status & NIC_TXD_STAT_DD)) {
  }
}

static int has_come(void) { return rx_ring[rx_next].status & NIC_RXD_STAT_DD; }

static void wait_by_polling(void) {
  while (!has_come()) {
  }
}

static void wait_by_interrupt(void) {
  while (!has_come()) {
    wfi();
    (void)NIC_REG(bar, NIC_ICR); /* clears the causes, and the interrupt line falls */
  }
}

/* The filled descriptor is the adapter's again. */
static void give_back(void) {
  barrier();
  rx_ring[rx_next].status = 0;
  NIC_REG(bar, NIC_RDT) = rx_next;
  rx_next = (rx_next + 1) % DESCRIPTORS;
}

static void fill_frame(uint32_t me) {
  frame[0] = frame[6] = 0x02;
  frame[5] = 0x0b - me;
  frame[11] = 0x0a + me;
  frame[12] = 0x88; /* a type for experiments */
  frame[13] = 0xb5;
}

int main(void) {
  uint32_t me = hart();
  fill_frame(me);
  open_rings();
  if (me == 0) {
    enable_wfi();
    NIC_REG(bar, NIC_IMS) = NIC_INT_RXT0;
    send(frame, sizeof frame);
  }
  uint8_t came = 0;
  while (came < FRAMES) {
    if (me == 0) wait_by_interrupt();
    else wait_by_polling();
    came++;
    give_back();
    frame[14] = came;
    if (me == 1 || came < FRAMES) send(frame, sizeof frame);
  }
  return came;
}
