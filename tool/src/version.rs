//! What this program is: its version and commit, and the library that it is linked with.

use std::sync::OnceLock;

use serde::Serialize;

/// The header of reports, and the text of `--version`.
#[derive(Clone, Debug, PartialEq, Eq, Serialize)]
pub struct Version {
    /// The version of tool and library.
    pub version: &'static str,
    /// `commit ID`, or `changed since commit ID`.
    pub commit: &'static str,
    /// VB_VERSION of the linked library.
    pub vb_version: u32,
    /// The linked library's own version and commit.
    pub library: String,
    /// SHA-256 of the proved archive in it.
    pub archive: String,
    /// Whether the archive was proved in this build, and by which kit.
    pub proved: String,
}

/// Of this program.
pub fn version() -> Version {
    // libvb 1.0.0, commit ID, proved archive SHA-256 DIGEST, proved in this build by KIT
    let parts: Vec<&str> = vb::version_text().splitn(4, ", ").collect();
    let part = |number: usize| parts.get(number).copied().unwrap_or("unknown");
    Version {
        version: env!("CARGO_PKG_VERSION"),
        commit: env!("VBMODEL_COMMIT"),
        vb_version: vb::version(),
        library: format!("{}, {}", part(0), part(1)),
        archive: part(2).rsplit(' ').next().unwrap_or("unknown").to_string(),
        proved: part(3).to_string(),
    }
}

/// What `--version` prints after the program's name.
pub fn text() -> &'static str {
    static TEXT: OnceLock<String> = OnceLock::new();
    TEXT.get_or_init(|| {
        let Version { version, commit, vb_version, library, archive, proved } = version();
        format!(
            "{version}\n{commit}\nVB_VERSION {vb_version}\n{library}\nproved archive SHA-256 {archive}\n{proved}"
        )
    })
}
