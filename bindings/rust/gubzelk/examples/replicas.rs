//! Keeps two replicas of a database, and kills the process that writes it. Another one goes on, and so do the replicas.
//!
//!     GUBZELK_LIB_DIR=PREFIX/lib cargo run --features keeper --example replicas
use gubzelk::keeper::{Connection, Options, Replica, Result, Source, Step, Value};
use std::process::{self, Child, Command, Stdio};
use std::{env, fs, io, thread, time::Duration};

/// Writes 600 rows, each in a transaction, and answers the replicas until its input ends.
fn write() -> Result<()> {
    let mut source = Source::open("live.db", &Options::default())?;
    for id in 1..=600 {
        let mut transaction = source.transaction()?;
        transaction.execute("INSERT OR REPLACE INTO item VALUES (?, ?)", &[id.into(), (f64::from(id) / 7.0).into()])?;
        transaction.commit()?;
    }
    io::stdin().read_line(&mut String::new()).map(drop).map_err(|why| panic!("{why}"))
}

/// Keeps a replica until it has 600 rows.
fn keep(file: &str) -> Result<()> {
    let mut replica = Replica::open(file, "live.db", &Options::default())?;
    loop {
        match replica.step(Duration::from_secs(1))? {
            Step::Idle if rows(file)?.len() == 600 => return Ok(()),
            Step::Lags => eprintln!("{file} lags: {}", replica.status().error),
            Step::Applied | Step::Idle | Step::Away => {}
        }
    }
}

fn rows(file: &str) -> Result<Vec<Vec<Value>>> {
    Connection::open_readonly(file)?.query("SELECT * FROM item ORDER BY id", &[])
}

fn start() -> Child {
    Command::new(env::current_exe().unwrap()).arg("write").stdin(Stdio::piped()).spawn().unwrap()
}

fn main() -> Result<()> {
    if env::args().nth(1).as_deref() == Some("write") {
        return write();
    }
    let folder = env::temp_dir().join(format!("gubzelk-replicas-{}", process::id()));
    fs::create_dir(&folder).and_then(|()| env::set_current_dir(&folder)).unwrap();
    Connection::open("live.db")?.execute_batch("PRAGMA journal_mode=WAL; CREATE TABLE item (id PRIMARY KEY, price)")?;
    let replicas = ["one.db", "two.db"].map(|file| thread::spawn(move || keep(file)));
    let mut writer = start();
    while rows("live.db").unwrap().len() < 200 {
        thread::sleep(Duration::from_millis(20));
    }
    writer.kill().unwrap();
    println!("the writing process is killed, and another one goes on: {}", writer.wait().unwrap());
    let mut writer = start();
    replicas.into_iter().for_each(|replica| replica.join().unwrap().unwrap());
    println!("both replicas have everything: {}", writer.wait().unwrap());
    let (live, one, two) = (rows("live.db")?, rows("one.db")?, rows("two.db")?);
    println!("rows: {}, one.db is equal: {}, two.db is equal: {}", live.len(), one == live, two == live);
    fs::remove_dir_all(&folder).unwrap();
    Ok(())
}
