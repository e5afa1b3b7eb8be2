/* Registers and legacy descriptors of the Intel 8254x family, with the names of its software developer's manual, as far
 * as the simulated adapter has them. */
#ifndef NIC_8254X_H
#define NIC_8254X_H

#include <stdint.h>

/* A register by its offset; `bar` is the address of the adapter's registers. */
#define NIC_REG(bar, offset) (*(volatile uint32_t *)((bar) + (offset)))

#define NIC_CTRL 0x0000u   /* device control */
#define NIC_STATUS 0x0008u /* device status */
#define NIC_ICR 0x00c0u    /* interrupt cause: to read it clears it */
#define NIC_ICS 0x00c8u    /* interrupt cause set */
#define NIC_IMS 0x00d0u    /* interrupt mask set */
#define NIC_IMC 0x00d8u    /* interrupt mask clear */
#define NIC_RCTL 0x0100u   /* receive control */
#define NIC_TCTL 0x0400u   /* transmit control */
#define NIC_RDBAL 0x2800u  /* receive descriptors: base address, low and high */
#define NIC_RDBAH 0x2804u
#define NIC_RDLEN 0x2808u  /* their length in bytes, a multiple of 128 */
#define NIC_RDH 0x2810u    /* head: the first one that is the adapter's */
#define NIC_RDT 0x2818u    /* tail: the first one that isn't */
#define NIC_TDBAL 0x3800u  /* transmit descriptors: the same */
#define NIC_TDBAH 0x3804u
#define NIC_TDLEN 0x3808u
#define NIC_TDH 0x3810u
#define NIC_TDT 0x3818u
#define NIC_RXCSUM 0x5000u                 /* receive checksum control */
#define NIC_RAL(n) (0x5400u + 8u * (n))    /* receive address n of 16, low and high */
#define NIC_RAH(n) (0x5404u + 8u * (n))

#define NIC_CTRL_SLU (1u << 6)   /* set link up */
#define NIC_CTRL_RST (1u << 26)  /* reset */
#define NIC_STATUS_FD (1u << 0)  /* full duplex */
#define NIC_STATUS_LU (1u << 1)  /* link up */

/* Causes of interrupts, in ICR, ICS, IMS and IMC. */
#define NIC_INT_TXDW (1u << 0)   /* a transmit descriptor was written back */
#define NIC_INT_TXQE (1u << 1)   /* the transmit ring is empty */
#define NIC_INT_LSC (1u << 2)    /* link status change */
#define NIC_INT_RXDMT0 (1u << 4) /* few receive descriptors are left */
#define NIC_INT_RXO (1u << 6)    /* a frame was dropped, since too many wait */
#define NIC_INT_RXT0 (1u << 7)   /* a frame was received */

#define NIC_RCTL_EN (1u << 1)    /* receiver enable */
#define NIC_RCTL_UPE (1u << 3)   /* unicast promiscuous */
#define NIC_RCTL_MPE (1u << 4)   /* multicast promiscuous */
#define NIC_RCTL_BAM (1u << 15)  /* broadcast accept mode */
#define NIC_RCTL_BSIZE_2048 (0u << 16)
#define NIC_RCTL_BSIZE_1024 (1u << 16)
#define NIC_RCTL_BSIZE_512 (2u << 16)
#define NIC_RCTL_BSIZE_256 (3u << 16)
#define NIC_RCTL_BSEX (1u << 25) /* buffer sizes but the first are 16 times as long */

#define NIC_TCTL_EN (1u << 1)    /* transmitter enable */
#define NIC_TCTL_PSP (1u << 3)   /* pad short packets */

#define NIC_RAH_AV (1u << 31)    /* address valid */

/* A legacy receive descriptor. */
struct nic_rx_desc {
  uint64_t addr;
  uint16_t length;
  uint16_t checksum;
  uint8_t status;
  uint8_t errors;
  uint16_t special;
};

#define NIC_RXD_STAT_DD (1u << 0)  /* descriptor done */
#define NIC_RXD_STAT_EOP (1u << 1) /* end of packet */

/* A legacy transmit descriptor. */
struct nic_tx_desc {
  uint64_t addr;
  uint16_t length;
  uint8_t cso; /* checksum offset */
  uint8_t cmd;
  uint8_t status;
  uint8_t css; /* checksum start */
  uint16_t special;
};

#define NIC_TXD_CMD_EOP (1u << 0)  /* end of packet */
#define NIC_TXD_CMD_IFCS (1u << 1) /* insert the frame check sequence; frames have none here */
#define NIC_TXD_CMD_IC (1u << 2)   /* insert checksum */
#define NIC_TXD_CMD_RS (1u << 3)   /* report status */
#define NIC_TXD_CMD_DEXT (1u << 5) /* no legacy descriptor; the adapter skips it */
#define NIC_TXD_STAT_DD (1u << 0)  /* descriptor done */

#endif
