//! An echo server over Rust's `h2`, in one thread, as `h2 serve` answers: a GET with its method and
//! path, another request with its body.
//!
//! Usage: rust_h2 PORT

use bytes::{Bytes, BytesMut};
use h2::server::{self, SendResponse};
use h2::{RecvStream, SendStream};
use http::{Request, Response};
use std::error::Error;
use tokio::net::{TcpListener, TcpStream};

type Outcome = Result<(), Box<dyn Error + Send + Sync>>;

fn main() -> Outcome {
    let port: u16 = std::env::args().nth(1).ok_or("rust_h2 PORT")?.parse()?;
    let runtime = tokio::runtime::Builder::new_current_thread().enable_io().build()?;
    runtime.block_on(async {
        let listener = TcpListener::bind(("127.0.0.1", port)).await?;
        loop {
            let (socket, _) = listener.accept().await?;
            tokio::spawn(serve(socket));
        }
    })
}

async fn serve(socket: TcpStream) -> Outcome {
    socket.set_nodelay(true)?;
    let mut connection = server::Builder::new()
        .initial_window_size(65_535)
        .max_concurrent_streams(100)
        .handshake::<_, Bytes>(socket)
        .await?;
    while let Some(accepted) = connection.accept().await {
        let (request, respond) = accepted?;
        tokio::spawn(answer(request, respond));
    }
    Ok(())
}

async fn answer(request: Request<RecvStream>, mut respond: SendResponse<Bytes>) -> Outcome {
    let text = format!("{} {}\n", request.method(), request.uri().path());
    let mut body = request.into_body();
    let mut kept = BytesMut::new();
    while let Some(part) = body.data().await {
        let part = part?;
        body.flow_control().release_capacity(part.len())?;
        kept.extend_from_slice(&part);
    }
    let octets = if kept.is_empty() { Bytes::from(text) } else { kept.freeze() };
    let response = Response::builder()
        .header("content-length", octets.len())
        .body(())?;
    send(respond.send_response(response, false)?, octets).await
}

/// Sends a body as its windows allow.
async fn send(mut stream: SendStream<Bytes>, octets: Bytes) -> Outcome {
    let mut rest = octets;
    while !rest.is_empty() {
        stream.reserve_capacity(rest.len());
        let room = std::future::poll_fn(|context| stream.poll_capacity(context)).await;
        let room = room.ok_or("closed")??;
        let part = rest.split_to(room.min(rest.len()));
        stream.send_data(part, rest.is_empty())?;
    }
    Ok(())
}
