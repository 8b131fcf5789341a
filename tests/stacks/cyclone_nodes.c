/* Two nodes in one process, as ROS 2 has them over Cyclone DDS: /talker, which writes rt/chatter, and /lab/listener, which reads it and ends
 * after a while. The process tells of them by samples of ros_discovery_info.
 *
 *     idlc -D WIDTH=16 nodes.idl && cc -DWIDTH=16 -I. cyclone_nodes.c nodes.c -lddsc -o cyclone_nodes
 *
 * `record` runs two of them, and another for each WIDTH. */
#include "nodes.h"
#include <dds/dds.h>
#include <stdint.h>
#include <stdlib.h>
#include <string.h>
#include <time.h>

typedef rmw_dds_common_msg_dds__Gid_ gid;
typedef rmw_dds_common_msg_dds__NodeEntitiesInfo_ node;
typedef rmw_dds_common_msg_dds__ParticipantEntitiesInfo_ entities;

static void rest(int milliseconds)
{
    struct timespec time = {milliseconds / 1000, milliseconds % 1000 * 1000000L};
    nanosleep(&time, NULL);
}

static dds_entity_t held(dds_entity_t entity)
{
    if (entity < 0)
        exit(1);
    return entity;
}

static gid gid_of(dds_entity_t entity)
{
    dds_guid_t guid;
    gid found;
    if (dds_get_guid(entity, &guid) != DDS_RETCODE_OK)
        exit(1);
    memset(&found, 0, sizeof found);
    memcpy(found.data, guid.v, sizeof guid.v);
    return found;
}

static void tell(dds_entity_t writer, gid participant, node *nodes, uint32_t count)
{
    entities told;
    memset(&told, 0, sizeof told);
    told.gid = participant;
    told.node_entities_info_seq._buffer = nodes;
    told.node_entities_info_seq._length = told.node_entities_info_seq._maximum = count;
    if (dds_write(writer, &told) != DDS_RETCODE_OK)
        exit(1);
}

int main(void)
{
    const char *enclave = "enclave=/lab;";
    dds_qos_t *as_participant = dds_create_qos(), *as_told = dds_create_qos(), *as_text = dds_create_qos();
    dds_qset_userdata(as_participant, enclave, strlen(enclave));
    dds_qset_reliability(as_told, DDS_RELIABILITY_RELIABLE, DDS_SECS(1));
    dds_qset_durability(as_told, DDS_DURABILITY_TRANSIENT_LOCAL);
    dds_qset_reliability(as_text, DDS_RELIABILITY_RELIABLE, DDS_SECS(1));

    dds_entity_t participant = held(dds_create_participant(DDS_DOMAIN_DEFAULT, as_participant, NULL));
    dds_entity_t discovery = held(dds_create_topic(participant, &rmw_dds_common_msg_dds__ParticipantEntitiesInfo__desc, "ros_discovery_info", NULL, NULL));
    dds_entity_t chatter = held(dds_create_topic(participant, &std_msgs_msg_dds__String__desc, "rt/chatter", NULL, NULL));
    dds_entity_t teller = held(dds_create_writer(participant, discovery, as_told, NULL));
    held(dds_create_reader(participant, discovery, as_told, NULL));
    dds_entity_t writer = held(dds_create_writer(participant, chatter, as_text, NULL));
    dds_entity_t reader = held(dds_create_reader(participant, chatter, as_text, NULL));

    gid of_writer = gid_of(writer), of_reader = gid_of(reader);
    node nodes[2];
    memset(nodes, 0, sizeof nodes);
    nodes[0].node_namespace = "/";
    nodes[0].node_name = "talker";
    nodes[0].writer_gid_seq._buffer = &of_writer;
    nodes[0].writer_gid_seq._length = nodes[0].writer_gid_seq._maximum = 1;
    nodes[1].node_namespace = "/lab";
    nodes[1].node_name = "listener";
    nodes[1].reader_gid_seq._buffer = &of_reader;
    nodes[1].reader_gid_seq._length = nodes[1].reader_gid_seq._maximum = 1;

    tell(teller, gid_of(participant), nodes, 2);
    for (int k = 0; k < 12; k++) {
        std_msgs_msg_dds__String_ text = {"hello"};
        rest(100);
        if (dds_write(writer, &text) != DDS_RETCODE_OK)
            exit(1);
        if (k == 8) {
            dds_delete(reader);
            tell(teller, gid_of(participant), nodes, 1);
        }
    }
    rest(200);
    dds_delete(participant);
    return 0;
}
