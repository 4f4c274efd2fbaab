//! The list of the paper's day to compare with.

/// The day's list as text; fields that the paper leaves open are our own.
pub const LIST: &str = "[ETF300]\r\n\
    Fundid1=510301\r\n\
    CreationRedemptionUnit=1000000\r\n\
    MaxCashRatio=0.05000\r\n\
    Publish=1\r\n\
    CreationRedemption=1\r\n\
    Recordnum=5\r\n\
    EstimateCashComponent=-331.22\r\n\
    TradingDay=20250630\r\n\
    PreTradingDay=20250627\r\n\
    CashComponent=-120.50\r\n\
    NAVperCU=425700.00\r\n\
    NAV=0.4257\r\n\
    CreationLimit=0\r\n\
    RedemptionLimit=0\r\n\
    CreationLimitPerUser=0\r\n\
    RedemptionLimitPerUser=0\r\n\
    NetCreationLimit=0\r\n\
    NetRedemptionLimit=0\r\n\
    NetCreationLimitPerUser=0\r\n\
    NetRedemptionLimitPerUser=0\r\n\
    TAGTAG\r\n\
    000001|PAYH    |    8000|3|0.10000|0.10000|   96000.000|\r\n\
    000002|WKA     |    1000|4|       |       |    8000.000|\r\n\
    600000|PFYH    |    5200|1|0.10000|0.10000|            |\r\n\
    600036|ZSYH    |    3000|0|       |       |            |\r\n\
    600519|GZMT    |     100|2|       |       |  150000.000|\r\n\
    ENDENDEND\r\n";
