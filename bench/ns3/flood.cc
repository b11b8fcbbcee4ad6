// Floods packets over ns-3's LrWpanPhy, to compare what one transmission costs. Standard input has the network and the
// floods as words in lines: 'sends N', 'node ID', 'link U V' (what U sends reaches V), and 'flood NANOSECOND ID BYTES' by
// ascending times. Each node that receives a packet of a flood sends it on after the turnaround of 192 us with its counter
// plus one, N times at most. Radios are always on; nothing is lost but by the links; of packets that come at once a
// node receives the first. So there are no clocks, no plans and no rule of reception, and less is done than by Foldcairn.
// Writes the number of transmissions and of receptions.
#include <ns3/core-module.h>
#include <ns3/lr-wpan-phy.h>
#include <ns3/mobility-module.h>
#include <ns3/network-module.h>
#include <ns3/propagation-loss-model.h>
#include <ns3/single-model-spectrum-channel.h>

#include <iostream>
#include <map>
#include <string>

using namespace ns3;

static uint32_t sends = 1, transmissions = 0, receptions = 0;

// A node with its radio. A packet begins with the number of its flood, in four bytes, and its counter.
struct Relay
{
    Ptr<LrWpanPhy> phy = CreateObject<LrWpanPhy>();
    Ptr<MobilityModel> place = CreateObject<ConstantPositionMobilityModel>();
    Ptr<Packet> next;
    uint32_t flood = 0, sent = 0;

    explicit Relay(Ptr<SpectrumChannel> channel)
    {
        phy->SetChannel(channel);
        phy->SetMobility(place);
        phy->SetPdDataIndicationCallback(MakeCallback(&Relay::Receive, this));
        phy->SetPdDataConfirmCallback(MakeCallback(&Relay::Sent, this));
        phy->SetPlmeSetTRXStateConfirmCallback(MakeCallback(&Relay::Turned, this));
        channel->AddRx(phy);
        phy->PlmeSetTRXStateRequest(IEEE_802_15_4_PHY_RX_ON);
    }

    void Start(uint32_t number, uint32_t length)
    {
        std::string bytes(length, '\0');
        for (int i = 0; i < 4; i++)
            bytes[i] = char(number >> (8 * i));
        flood = number;
        sent = 0;
        next = Create<Packet>(reinterpret_cast<const uint8_t*>(bytes.data()), length);
        phy->PlmeSetTRXStateRequest(IEEE_802_15_4_PHY_TX_ON);
    }

    void Turn()
    {
        phy->PlmeSetTRXStateRequest(IEEE_802_15_4_PHY_TX_ON);
    }

    // The turnaround of the radio itself is within the 192 us after which it sends.
    void Turned(LrWpanPhyEnumeration state)
    {
        if (!next || (state != IEEE_802_15_4_PHY_TX_ON && state != IEEE_802_15_4_PHY_SUCCESS))
            return;
        transmissions++;
        sent++;
        phy->PdDataRequest(next->GetSize(), next);
        next = nullptr;
    }

    void Sent(LrWpanPhyEnumeration)
    {
        phy->PlmeSetTRXStateRequest(IEEE_802_15_4_PHY_RX_ON);
    }

    void Receive(uint32_t length, Ptr<Packet> packet, uint8_t)
    {
        receptions++;
        std::string bytes(length, '\0');
        packet->CopyData(reinterpret_cast<uint8_t*>(bytes.data()), length);
        uint32_t number = 0;
        for (int i = 0; i < 4; i++)
            number |= uint32_t(uint8_t(bytes[i])) << (8 * i);
        if (number != flood)
        {
            flood = number;
            sent = 0;
        }
        if (next || sent >= sends || uint8_t(bytes[4]) >= 11)
            return;
        bytes[4]++;
        next = Create<Packet>(reinterpret_cast<const uint8_t*>(bytes.data()), length);
        // The radio still counts as receiving until this call returns.
        Simulator::ScheduleNow(&Relay::Turn, this);
    }
};

int main()
{
    auto losses = CreateObject<MatrixPropagationLossModel>();
    losses->SetDefaultLoss(1000);
    auto channel = CreateObject<SingleModelSpectrumChannel>();
    channel->SetAttribute("MaxLossDb", DoubleValue(200));
    channel->AddPropagationLossModel(losses);
    std::map<uint32_t, Relay*> nodes;
    uint32_t floods = 0;
    for (std::string word; std::cin >> word;)
    {
        uint64_t a, b, c;
        if (word == "sends")
            std::cin >> sends;
        else if (word == "node" && std::cin >> a)
            nodes[a] = new Relay(channel);
        else if (word == "link" && std::cin >> a >> b)
            losses->SetLoss(nodes.at(a)->place, nodes.at(b)->place, 0, false);
        else if (word == "flood" && std::cin >> a >> b >> c)
            Simulator::Schedule(NanoSeconds(a), &Relay::Start, nodes.at(b), ++floods, uint32_t(c));
    }
    Simulator::Run();
    std::cout << transmissions << ' ' << receptions << '\n';
    Simulator::Destroy();
}
