/* Where the DDK's headers put the fields that a layout file names (docs/LAYOUT.md): for each a line
 * `-> NAME OFFSET` of the assembler text that the compiler makes of this file. Nothing is run.
 * tests/outside/layout.sh makes a layout file of these lines. The headers are MinGW's ddk/ndis.h and
 * ddk/ntddk.h; NDIS 5.1 and a miniport are what drivers define too.
 */
#define NDIS_MINIPORT_DRIVER 1
#define NDIS51_MINIPORT 1
#define NDIS51 1

#include <stddef.h>
#include <ntddk.h>
#include <ndis.h>

#define FIELD(name, type, field) __asm__ volatile("-> " #name " %c0" : : "i"(offsetof(type, field)))

void fields(void)
{
    FIELD(packet_physical_count, NDIS_PACKET, Private.PhysicalCount);
    FIELD(packet_total_length, NDIS_PACKET, Private.TotalLength);
    FIELD(packet_head, NDIS_PACKET, Private.Head);
    FIELD(packet_tail, NDIS_PACKET, Private.Tail);
    FIELD(packet_pool, NDIS_PACKET, Private.Pool);
    FIELD(packet_count, NDIS_PACKET, Private.Count);
    FIELD(packet_flags, NDIS_PACKET, Private.Flags);
    FIELD(packet_valid_counts, NDIS_PACKET, Private.ValidCounts);
    FIELD(packet_ndis_flags, NDIS_PACKET, Private.NdisPacketFlags);
    FIELD(packet_oob_offset, NDIS_PACKET, Private.NdisPacketOobOffset);
    FIELD(packet_miniport_reserved, NDIS_PACKET, MiniportReserved);
    FIELD(oob_header_size, NDIS_PACKET_OOB_DATA, HeaderSize);
    FIELD(oob_status, NDIS_PACKET_OOB_DATA, Status);
    FIELD(buffer_next, NDIS_BUFFER, Next);
    FIELD(buffer_size, NDIS_BUFFER, Size);
    FIELD(buffer_flags, NDIS_BUFFER, MdlFlags);
    FIELD(buffer_mapped, NDIS_BUFFER, MappedSystemVa);
    FIELD(buffer_start, NDIS_BUFFER, StartVa);
    FIELD(buffer_count, NDIS_BUFFER, ByteCount);
    FIELD(buffer_offset, NDIS_BUFFER, ByteOffset);
    FIELD(block_packet_indicate, NDIS_MINIPORT_BLOCK, PacketIndicateHandler);
    FIELD(block_send_complete, NDIS_MINIPORT_BLOCK, SendCompleteHandler);
    FIELD(block_send_resources, NDIS_MINIPORT_BLOCK, SendResourcesHandler);
    FIELD(block_reset_complete, NDIS_MINIPORT_BLOCK, ResetCompleteHandler);
    FIELD(block_status, NDIS_MINIPORT_BLOCK, StatusHandler);
    FIELD(block_status_complete, NDIS_MINIPORT_BLOCK, StatusCompleteHandler);
    FIELD(block_query_complete, NDIS_MINIPORT_BLOCK, QueryCompleteHandler);
    FIELD(block_set_complete, NDIS_MINIPORT_BLOCK, SetCompleteHandler);
    FIELD(block_eth_indicate, NDIS_MINIPORT_BLOCK, EthRxIndicateHandler);
    FIELD(block_eth_complete, NDIS_MINIPORT_BLOCK, EthRxCompleteHandler);
    FIELD(block_eth_db, NDIS_MINIPORT_BLOCK, EthDB);
}
