//! The sites of the process: one by itself, or two that share a pool. A link has one number in the process: those of the second site begin at 4.

use rsmp_site::{Cabinet, NotStored, Site, SiteMut, SiteRef, LINKS, SITES};

/// What the sites are called in orders, in the record and in the log.
pub const NAMES: [&str; SITES] = ["north", "south"];

/// The site of a link.
pub fn site_of(link: u32) -> usize {
    (link / LINKS) as usize
}

/// The number of a link in its site.
pub fn link_of(link: u32) -> u32 {
    link % LINKS
}

/// The number in the process of a site's link.
pub fn place_of(site: usize, link: u32) -> u32 {
    site as u32 * LINKS + link
}

#[derive(Clone, PartialEq, Eq)]
pub enum Memory {
    One(Box<Site>),
    Two(Box<Cabinet>),
}

impl Memory {
    /// Before any start.
    pub fn of(sites: usize) -> Memory {
        match sites {
            1 => Memory::One(Box::new(Site::NONE)),
            _ => Memory::Two(Box::new(Cabinet::EMPTY)),
        }
    }

    pub fn sites(&self) -> usize {
        match self {
            Memory::One(_) => 1,
            Memory::Two(_) => SITES,
        }
    }

    pub fn site(&self, number: usize) -> SiteRef<'_> {
        match self {
            Memory::One(site) => site.lent(),
            Memory::Two(cabinet) => cabinet.site(number as u32).expect("a cabinet has two"),
        }
    }

    pub fn site_mut(&mut self, number: usize) -> SiteMut<'_> {
        match self {
            Memory::One(site) => site.lent_mut(),
            Memory::Two(cabinet) => cabinet.site_mut(number as u32).expect("a cabinet has two"),
        }
    }

    /// What a line of the record, or of the log, begins with; nothing of a site by itself.
    pub fn named(&self, site: usize) -> String {
        match self {
            Memory::One(_) => String::new(),
            Memory::Two(_) => format!("{} ", NAMES[site]),
        }
    }

    pub fn to_stored(&self) -> Vec<u8> {
        match self {
            Memory::One(site) => site.to_stored().to_vec(),
            Memory::Two(cabinet) => cabinet.to_stored().to_vec(),
        }
    }

    pub fn from_stored(bytes: &[u8], sites: usize) -> Result<Memory, NotStored> {
        Ok(match sites {
            1 => Memory::One(Box::new(Site::from_stored(bytes)?)),
            _ => Memory::Two(Box::new(Cabinet::from_stored(bytes)?)),
        })
    }
}
