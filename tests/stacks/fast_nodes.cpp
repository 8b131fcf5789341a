// Two nodes in one process, as ROS 2 has them over Fast DDS: /talker, which writes rt/chatter, and /lab/listener, which reads it and ends after
// a while. The process tells of them by samples of ros_discovery_info.
//
//     c++ -DWIDTH=16 fast_nodes.cpp -lfastrtps -lfastcdr -o fast_nodes
//
// `record` runs two of them, and another for each WIDTH.
#include <chrono>
#include <cstdint>
#include <cstdlib>
#include <cstring>
#include <fastdds/dds/domain/DomainParticipant.hpp>
#include <fastdds/dds/domain/DomainParticipantFactory.hpp>
#include <fastdds/dds/publisher/DataWriter.hpp>
#include <fastdds/dds/publisher/Publisher.hpp>
#include <fastdds/dds/subscriber/DataReader.hpp>
#include <fastdds/dds/subscriber/Subscriber.hpp>
#include <fastdds/dds/topic/TopicDataType.hpp>
#include <fastdds/dds/topic/TypeSupport.hpp>
#include <fastdds/rtps/transport/UDPv4TransportDescriptor.h>
#include <string>
#include <thread>
#include <vector>

using namespace eprosima::fastdds::dds;
using eprosima::fastrtps::rtps::GUID_t;
using Octets = std::vector<uint8_t>;

// Values that are octets already: what CDR makes of them, lowest octet first, behind the id of this representation.
class Plain : public TopicDataType {
public:
    explicit Plain(const char *name)
    {
        setName(name);
        m_typeSize = 4096;
        m_isGetKeyDefined = false;
    }
    bool serialize(void *data, eprosima::fastrtps::rtps::SerializedPayload_t *payload) override
    {
        const Octets &octets = *static_cast<Octets *>(data);
        const uint8_t id[4] = {0, 1, 0, 0};
        payload->encapsulation = CDR_LE;
        payload->length = 4 + octets.size();
        std::memcpy(payload->data, id, 4);
        std::memcpy(payload->data + 4, octets.data(), octets.size());
        return true;
    }
    bool deserialize(eprosima::fastrtps::rtps::SerializedPayload_t *payload, void *data) override
    {
        static_cast<Octets *>(data)->assign(payload->data + 4, payload->data + payload->length);
        return true;
    }
    std::function<uint32_t()> getSerializedSizeProvider(void *data) override
    {
        return [data]() -> uint32_t { return 4 + static_cast<Octets *>(data)->size(); };
    }
    void *createData() override { return new Octets(); }
    void deleteData(void *data) override { delete static_cast<Octets *>(data); }
    bool getKey(void *, eprosima::fastrtps::rtps::InstanceHandle_t *, bool) override { return false; }
};

static void put_number(Octets &out, uint32_t value)
{
    while (out.size() % 4 != 0)
        out.push_back(0);
    for (int k = 0; k < 4; k++)
        out.push_back(value >> 8 * k & 0xff);
}

static void put_text(Octets &out, const std::string &text)
{
    put_number(out, text.size() + 1);
    out.insert(out.end(), text.begin(), text.end());
    out.push_back(0);
}

static void put_gid(Octets &out, const GUID_t &guid)
{
    out.insert(out.end(), guid.guidPrefix.value, guid.guidPrefix.value + 12);
    out.insert(out.end(), guid.entityId.value, guid.entityId.value + 4);
    out.insert(out.end(), WIDTH - 16, 0);
}

struct Node {
    std::string space, name;
    std::vector<GUID_t> readers, writers;
};

static Octets told_of(const GUID_t &participant, const std::vector<Node> &nodes)
{
    Octets out;
    put_gid(out, participant);
    put_number(out, nodes.size());
    for (const Node &node : nodes) {
        put_text(out, node.space);
        put_text(out, node.name);
        for (const auto *gids : {&node.readers, &node.writers}) {
            put_number(out, gids->size());
            for (const GUID_t &gid : *gids)
                put_gid(out, gid);
        }
    }
    return out;
}

template <class T> static T *held(T *entity)
{
    if (entity == nullptr)
        std::exit(1);
    return entity;
}

static void rest(int milliseconds)
{
    std::this_thread::sleep_for(std::chrono::milliseconds(milliseconds));
}

int main()
{
    const std::string enclave = "enclave=/lab;";
    DomainParticipantQos qos;
    qos.name("/");
    qos.user_data().setValue({enclave.begin(), enclave.end()});
    qos.transport().use_builtin_transports = false;
    qos.transport().user_transports.push_back(std::make_shared<eprosima::fastdds::rtps::UDPv4TransportDescriptor>());
    auto *factory = DomainParticipantFactory::get_instance();
    auto *participant = held(factory->create_participant(0, qos));
    TypeSupport told_type(new Plain("rmw_dds_common::msg::dds_::ParticipantEntitiesInfo_")), text_type(new Plain("std_msgs::msg::dds_::String_"));
    told_type.register_type(participant);
    text_type.register_type(participant);
    auto *discovery = held(participant->create_topic("ros_discovery_info", told_type.get_type_name(), TOPIC_QOS_DEFAULT));
    auto *chatter = held(participant->create_topic("rt/chatter", text_type.get_type_name(), TOPIC_QOS_DEFAULT));
    auto *publisher = held(participant->create_publisher(PUBLISHER_QOS_DEFAULT));
    auto *subscriber = held(participant->create_subscriber(SUBSCRIBER_QOS_DEFAULT));

    DataWriterQos writes;
    DataReaderQos reads;
    writes.reliability().kind = RELIABLE_RELIABILITY_QOS;
    reads.reliability().kind = RELIABLE_RELIABILITY_QOS;
    auto *writer = held(publisher->create_datawriter(chatter, writes));
    auto *reader = held(subscriber->create_datareader(chatter, reads));
    writes.durability().kind = TRANSIENT_LOCAL_DURABILITY_QOS;
    reads.durability().kind = TRANSIENT_LOCAL_DURABILITY_QOS;
    auto *teller = held(publisher->create_datawriter(discovery, writes));
    held(subscriber->create_datareader(discovery, reads));

    std::vector<Node> nodes{{"/", "talker", {}, {writer->guid()}}, {"/lab", "listener", {reader->guid()}, {}}};
    Octets told = told_of(participant->guid(), nodes);
    teller->write(&told);
    for (int k = 0; k < 12; k++) {
        Octets text;
        put_text(text, "hello");
        rest(100);
        writer->write(&text);
        if (k == 8) {
            subscriber->delete_datareader(reader);
            nodes.pop_back();
            told = told_of(participant->guid(), nodes);
            teller->write(&told);
        }
    }
    rest(200);
    participant->delete_contained_entities();
    factory->delete_participant(participant);
    return 0;
}
