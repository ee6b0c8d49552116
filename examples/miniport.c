/* An NDIS 5.1 miniport against the DDK's headers, of an Ethernet card that is not there: each packet
 * that is sent is taken, none is received, and a timer counts. It has what every miniport has, in
 * the order in which it is called: DriverEntry registers the handlers, and each adapter is
 * initialized, asked, sent packets and halted.
 *
 * `examples/build-miniport.sh miniport.sys` builds it with MinGW's compiler. It is a serialized
 * miniport: NDIS calls one handler of an adapter at a time, its timer's function too, so that there
 * is no lock.
 */

#define NDIS_MINIPORT_DRIVER 1
#define NDIS51_MINIPORT 1

#include <ntddk.h>
#include <ndis.h>

enum {
    TAG = 0x6D617845,        /* "Exam" */
    MAXIMUM_FRAME = 1500,    /* without the header of 14 bytes */
    MAXIMUM_PACKET = 1514,
    LINK_SPEED = 100000,     /* in units of 100 bits a second */
    USUAL_INTERVAL = 1000,   /* milliseconds */
    SECONDS_OF_HANG_CHECK = 4
};

/* What is kept of an adapter; its address is the context that each handler is given. */
typedef struct {
    NDIS_HANDLE handle;
    NDIS_MINIPORT_TIMER timer;
    ULONG ticks;
    ULONG packets_sent;
    ULONG packet_filter;
    ULONG lookahead;
} Adapter;

static NDIS_HANDLE wrapper;

static const UCHAR station_address[6] = {0x02, 0x00, 0x00, 0x4E, 0x45, 0x02};

static const char vendor_description[] = "A miniport without a card";

/* What can be asked, as OID_GEN_SUPPORTED_LIST tells it. */
static const NDIS_OID supported[] = {
    OID_GEN_SUPPORTED_LIST,
    OID_GEN_HARDWARE_STATUS,
    OID_GEN_MEDIA_SUPPORTED,
    OID_GEN_MEDIA_IN_USE,
    OID_GEN_MAXIMUM_LOOKAHEAD,
    OID_GEN_MAXIMUM_FRAME_SIZE,
    OID_GEN_LINK_SPEED,
    OID_GEN_VENDOR_DESCRIPTION,
    OID_GEN_CURRENT_PACKET_FILTER,
    OID_GEN_CURRENT_LOOKAHEAD,
    OID_GEN_DRIVER_VERSION,
    OID_GEN_MAXIMUM_TOTAL_SIZE,
    OID_GEN_XMIT_OK,
    OID_802_3_PERMANENT_ADDRESS,
    OID_802_3_CURRENT_ADDRESS,
    OID_802_3_MAXIMUM_LIST_SIZE
};

/* The timer's function: the context is what NdisMInitializeTimer was given. */
static VOID NTAPI tick(PVOID system, PVOID context, PVOID first, PVOID second)
{
    Adapter *adapter = context;

    (void)system;
    (void)first;
    (void)second;
    adapter->ticks++;
}

/* The parameter Interval of the INF, in milliseconds, or the usual one. */
static ULONG read_interval(NDIS_HANDLE configuration_context)
{
    static NDIS_STRING keyword = RTL_CONSTANT_STRING(L"Interval");
    PNDIS_CONFIGURATION_PARAMETER parameter;
    NDIS_HANDLE configuration;
    NDIS_STATUS status;
    ULONG interval = USUAL_INTERVAL;

    NdisOpenConfiguration(&status, &configuration, configuration_context);
    if (status != NDIS_STATUS_SUCCESS)
        return interval;
    NdisReadConfiguration(&status, &parameter, configuration, &keyword, NdisParameterInteger);
    if (status == NDIS_STATUS_SUCCESS && parameter->ParameterData.IntegerData != 0)
        interval = parameter->ParameterData.IntegerData;
    NdisCloseConfiguration(configuration);
    return interval;
}

/* The place of Ethernet among the media that NDIS offers, or their count. */
static UINT place_of_ethernet(PNDIS_MEDIUM media, UINT count)
{
    UINT place = 0;

    while (place < count && media[place] != NdisMedium802_3)
        place++;
    return place;
}

static NDIS_STATUS NTAPI initialize(PNDIS_STATUS open_error, PUINT selected, PNDIS_MEDIUM media,
                                    UINT count, NDIS_HANDLE handle, NDIS_HANDLE configuration)
{
    PVOID block;
    Adapter *adapter;
    UINT place = place_of_ethernet(media, count);

    (void)open_error;
    if (place == count)
        return NDIS_STATUS_UNSUPPORTED_MEDIA;
    *selected = place;
    if (NdisAllocateMemoryWithTag(&block, sizeof(Adapter), TAG) != NDIS_STATUS_SUCCESS)
        return NDIS_STATUS_RESOURCES;
    NdisZeroMemory(block, sizeof(Adapter));
    adapter = block;
    adapter->handle = handle;
    adapter->lookahead = MAXIMUM_FRAME;
    NdisMSetAttributesEx(handle, adapter, SECONDS_OF_HANG_CHECK, 0, NdisInterfaceInternal);
    NdisMInitializeTimer(&adapter->timer, handle, tick, adapter);
    NdisMSetPeriodicTimer(&adapter->timer, read_interval(configuration));
    return NDIS_STATUS_SUCCESS;
}

/* Called once, last of all: what initialize took is given back. */
static VOID NTAPI halt(NDIS_HANDLE context)
{
    Adapter *adapter = context;
    BOOLEAN cancelled;

    NdisMCancelTimer(&adapter->timer, &cancelled);
    NdisFreeMemory(adapter, sizeof(Adapter), 0);
}

/* Nothing hangs, and there is nothing to reset. */
static BOOLEAN NTAPI check_for_hang(NDIS_HANDLE context)
{
    (void)context;
    return FALSE;
}

static NDIS_STATUS NTAPI reset(PBOOLEAN addressing_reset, NDIS_HANDLE context)
{
    (void)context;
    *addressing_reset = FALSE;
    return NDIS_STATUS_SUCCESS;
}

/* The packet goes back with the status: it is not kept. */
static NDIS_STATUS NTAPI send(NDIS_HANDLE context, PNDIS_PACKET packet, UINT flags)
{
    Adapter *adapter = context;

    (void)packet;
    (void)flags;
    adapter->packets_sent++;
    return NDIS_STATUS_SUCCESS;
}

/* Puts an answer into the buffer of a query, where it has room. */
static NDIS_STATUS answer(const void *bytes, ULONG length, PVOID buffer, ULONG room,
                          PULONG written, PULONG needed)
{
    if (length > room) {
        *needed = length;
        return NDIS_STATUS_INVALID_LENGTH;
    }
    NdisMoveMemory(buffer, bytes, length);
    *written = length;
    return NDIS_STATUS_SUCCESS;
}

/* Whether an OID is answered by a number, and which. */
static BOOLEAN number_of(const Adapter *adapter, NDIS_OID oid, ULONG *number)
{
    switch (oid) {
    case OID_GEN_HARDWARE_STATUS: *number = NdisHardwareStatusReady; return TRUE;
    case OID_GEN_MEDIA_SUPPORTED:
    case OID_GEN_MEDIA_IN_USE: *number = NdisMedium802_3; return TRUE;
    case OID_GEN_MAXIMUM_LOOKAHEAD:
    case OID_GEN_MAXIMUM_FRAME_SIZE: *number = MAXIMUM_FRAME; return TRUE;
    case OID_GEN_LINK_SPEED: *number = LINK_SPEED; return TRUE;
    case OID_GEN_CURRENT_PACKET_FILTER: *number = adapter->packet_filter; return TRUE;
    case OID_GEN_CURRENT_LOOKAHEAD: *number = adapter->lookahead; return TRUE;
    case OID_GEN_MAXIMUM_TOTAL_SIZE: *number = MAXIMUM_PACKET; return TRUE;
    case OID_GEN_XMIT_OK: *number = adapter->packets_sent; return TRUE;
    case OID_802_3_MAXIMUM_LIST_SIZE: *number = 0; return TRUE;
    default: return FALSE;
    }
}

static NDIS_STATUS NTAPI query_information(NDIS_HANDLE context, NDIS_OID oid, PVOID buffer,
                                           ULONG room, PULONG written, PULONG needed)
{
    static const USHORT version = 0x0501;
    ULONG number;

    *written = 0;
    *needed = 0;
    if (number_of(context, oid, &number))
        return answer(&number, sizeof(number), buffer, room, written, needed);
    switch (oid) {
    case OID_GEN_SUPPORTED_LIST:
        return answer(supported, sizeof(supported), buffer, room, written, needed);
    case OID_GEN_VENDOR_DESCRIPTION:
        return answer(vendor_description, sizeof(vendor_description), buffer, room, written, needed);
    case OID_GEN_DRIVER_VERSION:
        return answer(&version, sizeof(version), buffer, room, written, needed);
    case OID_802_3_PERMANENT_ADDRESS:
    case OID_802_3_CURRENT_ADDRESS:
        return answer(station_address, sizeof(station_address), buffer, room, written, needed);
    default:
        return NDIS_STATUS_INVALID_OID;
    }
}

static NDIS_STATUS NTAPI set_information(NDIS_HANDLE context, NDIS_OID oid, PVOID buffer,
                                         ULONG length, PULONG read, PULONG needed)
{
    Adapter *adapter = context;
    ULONG *field;

    *read = 0;
    *needed = 0;
    if (oid == OID_GEN_CURRENT_PACKET_FILTER)
        field = &adapter->packet_filter;
    else if (oid == OID_GEN_CURRENT_LOOKAHEAD)
        field = &adapter->lookahead;
    else
        return NDIS_STATUS_INVALID_OID;
    if (length < sizeof(ULONG)) {
        *needed = sizeof(ULONG);
        return NDIS_STATUS_INVALID_LENGTH;
    }
    NdisMoveMemory(field, buffer, sizeof(ULONG));
    *read = sizeof(ULONG);
    return NDIS_STATUS_SUCCESS;
}

/* NDIS 5.1 has these three beside the handlers of 5.0. No packet is kept, so none can be cancelled,
 * and no card has to be told of an event or silenced.
 */
static VOID NTAPI cancel_send_packets(NDIS_HANDLE context, PVOID id)
{
    (void)context;
    (void)id;
}

static VOID NTAPI pnp_event_notify(NDIS_HANDLE context, NDIS_DEVICE_PNP_EVENT event, PVOID buffer,
                                   ULONG length)
{
    (void)context;
    (void)event;
    (void)buffer;
    (void)length;
}

static VOID NTAPI adapter_shutdown(PVOID context)
{
    (void)context;
}

NTSTATUS NTAPI DriverEntry(PDRIVER_OBJECT driver_object, PUNICODE_STRING registry_path)
{
    NDIS_MINIPORT_CHARACTERISTICS characteristics;
    NDIS_STATUS status;

    NdisMInitializeWrapper(&wrapper, driver_object, registry_path, NULL);
    NdisZeroMemory(&characteristics, sizeof(characteristics));
    characteristics.MajorNdisVersion = 5;
    characteristics.MinorNdisVersion = 1;
    characteristics.CheckForHangHandler = check_for_hang;
    characteristics.HaltHandler = halt;
    characteristics.InitializeHandler = initialize;
    characteristics.QueryInformationHandler = query_information;
    characteristics.ResetHandler = reset;
    characteristics.SendHandler = send;
    characteristics.SetInformationHandler = set_information;
    characteristics.CancelSendPacketsHandler = cancel_send_packets;
    characteristics.PnPEventNotifyHandler = pnp_event_notify;
    characteristics.AdapterShutdownHandler = adapter_shutdown;
    status = NdisMRegisterMiniport(wrapper, &characteristics, sizeof(characteristics));
    if (status != NDIS_STATUS_SUCCESS)
        NdisTerminateWrapper(wrapper, NULL);
    return status;
}
