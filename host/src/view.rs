//! A state of the library as one that is compared.

use pingvratha::plain::{Endpoint, Entry, Peer, State};
use reference::calls::{EndpointView, NodeView, View};

/// The whole state; `data` gives the data of an entry.
pub fn view_of<'a>(state: &State, data: impl Fn(&Entry) -> &'a [u8]) -> View<'a> {
    let entries = &state.table.entries[..state.table.count];
    let peers = &state.peers.list[..state.peers.count];
    let node_view = |entry: &Entry| NodeView {
        node: entry.id,
        seq: entry.seq,
        age: u64::from(entry.age),
        since: entry.since,
        data: data(entry),
        digest: entry.hash,
    };
    View {
        own: state.own,
        last: state.last,
        digest: state.digest,
        nodes: entries.iter().map(node_view).collect(),
        peers: peers.iter().map(peer_view).collect(),
        endpoints: state.endpoints.map(|endpoint| endpoint_view(&endpoint)),
    }
}

fn peer_view(peer: &Peer) -> reference::node::Peer {
    reference::node::Peer {
        node: peer.node,
        theirs: peer.theirs,
        ours: peer.ours,
        contact: peer.contact,
    }
}

fn endpoint_view(endpoint: &Endpoint) -> EndpointView {
    let trickle = &endpoint.trickle;
    EndpointView {
        start: trickle.start,
        point: trickle.point,
        interval: trickle.interval,
        count: trickle.count,
        spent: trickle.spent,
        next_request: endpoint.next,
        keep: endpoint.keep,
        quiet: endpoint.quiet,
    }
}
