// SQLite in memory, by its C interface.
use std::ffi::{CStr, CString, c_char, c_int, c_void};
use std::ptr::{null, null_mut};

#[link(name = "sqlite3")]
unsafe extern "C" {
    fn sqlite3_libversion() -> *const c_char;
    fn sqlite3_open(name: *const c_char, db: *mut *mut c_void) -> c_int;
    fn sqlite3_exec(
        db: *mut c_void,
        sql: *const c_char,
        call: *const c_void,
        arg: *const c_void,
        message: *const c_void,
    ) -> c_int;
    fn sqlite3_prepare_v2(
        db: *mut c_void,
        sql: *const c_char,
        bytes: c_int,
        statement: *mut *mut c_void,
        tail: *const c_void,
    ) -> c_int;
    fn sqlite3_bind_int64(statement: *mut c_void, place: c_int, value: i64) -> c_int;
    fn sqlite3_step(statement: *mut c_void) -> c_int;
    fn sqlite3_reset(statement: *mut c_void) -> c_int;
    fn sqlite3_column_int64(statement: *mut c_void, column: c_int) -> i64;
}

const ROW: c_int = 100;
const DONE: c_int = 101;

pub struct Database(*mut c_void);

pub struct Statement(*mut c_void);

pub fn version() -> String {
    unsafe { CStr::from_ptr(sqlite3_libversion()) }
        .to_string_lossy()
        .into_owned()
}

impl Database {
    pub fn in_memory() -> Database {
        let mut db = null_mut();
        let name = CString::new(":memory:").unwrap();
        assert_eq!(unsafe { sqlite3_open(name.as_ptr(), &mut db) }, 0);
        Database(db)
    }

    pub fn run(&self, sql: &str) {
        let text = CString::new(sql).unwrap();
        let status = unsafe { sqlite3_exec(self.0, text.as_ptr(), null(), null(), null()) };
        assert_eq!(status, 0, "{sql}");
    }

    pub fn prepare(&self, sql: &str) -> Statement {
        let text = CString::new(sql).unwrap();
        let mut statement = null_mut();
        let status =
            unsafe { sqlite3_prepare_v2(self.0, text.as_ptr(), -1, &mut statement, null()) };
        assert_eq!(status, 0, "{sql}");
        Statement(statement)
    }

    // Loads the tables, with an index from each column that covers the other, and has them analysed.
    pub fn load(&self, tables: &[Vec<[u64; 2]>]) {
        self.run("BEGIN");
        for (t, rows) in tables.iter().enumerate() {
            self.run(&format!("CREATE TABLE t{t} (c0 INTEGER, c1 INTEGER)"));
            let insert = self.prepare(&format!("INSERT INTO t{t} VALUES (?, ?)"));
            for row in rows {
                unsafe {
                    sqlite3_bind_int64(insert.0, 1, row[0] as i64);
                    sqlite3_bind_int64(insert.0, 2, row[1] as i64);
                    assert_eq!(sqlite3_step(insert.0), DONE);
                    sqlite3_reset(insert.0);
                }
            }
            self.run(&format!("CREATE INDEX t{t}_0 ON t{t} (c0, c1)"));
            self.run(&format!("CREATE INDEX t{t}_1 ON t{t} (c1, c0)"));
        }
        self.run("COMMIT");
        self.run("ANALYZE");
    }
}

impl Statement {
    // Runs the statement and gathers the cells of its rows; how many rows.
    pub fn rows(&self, width: usize, out: &mut Vec<u64>) -> usize {
        out.clear();
        let mut count = 0;
        loop {
            match unsafe { sqlite3_step(self.0) } {
                ROW => count += 1,
                status => {
                    assert_eq!(status, DONE);
                    unsafe { sqlite3_reset(self.0) };
                    return count;
                }
            }
            for c in 0..width {
                out.push(unsafe { sqlite3_column_int64(self.0, c as c_int) } as u64);
            }
        }
    }
}
