"""The names of ROS 2 for topics and types of DDS, for the second implementation: its middleware makes these from those.

A name is octets. One that is not made so is as it is.
"""

# How the two topics of a service begin and end, and the word that is told of each.
SERVICES = [(b'rq/', b'Request', b' request'), (b'rr/', b'Reply', b' reply')]


def ros_topic(topic):
    """`/odom` of `rt/odom`, `/x request` of `rq/xRequest`, `/x reply` of `rr/xReply`"""
    if topic.startswith(b'rt/'):
        return topic[2:]
    for begins, ends, word in SERVICES:
        if topic.startswith(begins) and topic[3:].endswith(ends):
            return topic[2:-len(ends)] + word
    return topic


def ros_type(kind):
    """`nav_msgs/msg/Odometry` of `nav_msgs::msg::dds_::Odometry_`: the first `::dds_::` parts the two"""
    package, mark, name = kind.partition(b'::dds_::')
    return package.replace(b'::', b'/') + b'/' + name[:-1] if mark and name.endswith(b'_') else kind
